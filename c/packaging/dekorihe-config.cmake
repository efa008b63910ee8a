# The targets that find_package(dekorihe) defines:
#   dekorihe::tcrx         the shared library, whose memory is that of malloc (missing if it wasn't installed)
#   dekorihe::tcrx_static  the static library, without memory: link it with one of the next two, or with two functions of your own
#   dekorihe::memory       tcrx_memory.c, the memory over malloc, and tcrx_lines_memory.c for the calls of tcrx_lines.h
#   dekorihe::array        tcrx_static.c, the memory in a static array of your program's
# The last two are C files that are compiled with your target, by the compiler for C++ if the project has no C.
get_filename_component(_dekorihe "${CMAKE_CURRENT_LIST_DIR}/../../.." ABSOLUTE)

if(NOT TARGET dekorihe::tcrx_static)
    add_library(dekorihe::tcrx_static STATIC IMPORTED)
    set_target_properties(dekorihe::tcrx_static PROPERTIES
        IMPORTED_LOCATION "${_dekorihe}/lib/libtcrx.a"
        INTERFACE_INCLUDE_DIRECTORIES "${_dekorihe}/include")
    get_property(_dekorihe_languages GLOBAL PROPERTY ENABLED_LANGUAGES)
    foreach(_dekorihe_file IN ITEMS memory lines_memory static)
        set(_dekorihe_${_dekorihe_file} "${_dekorihe}/share/dekorihe/tcrx_${_dekorihe_file}.c")
        if(NOT "C" IN_LIST _dekorihe_languages)
            # In a project without C, CMake would silently leave out a C file.
            file(WRITE "${CMAKE_CURRENT_BINARY_DIR}/dekorihe/tcrx_${_dekorihe_file}.cc"
                "#include \"${_dekorihe_${_dekorihe_file}}\"\n")
            set(_dekorihe_${_dekorihe_file} "${CMAKE_CURRENT_BINARY_DIR}/dekorihe/tcrx_${_dekorihe_file}.cc")
        endif()
    endforeach()
    add_library(dekorihe::memory INTERFACE IMPORTED)
    set_target_properties(dekorihe::memory PROPERTIES INTERFACE_SOURCES "${_dekorihe_memory};${_dekorihe_lines_memory}")
    add_library(dekorihe::array INTERFACE IMPORTED)
    set_target_properties(dekorihe::array PROPERTIES INTERFACE_SOURCES "${_dekorihe_static}")
    unset(_dekorihe_languages)
    unset(_dekorihe_memory)
    unset(_dekorihe_lines_memory)
    unset(_dekorihe_static)
    if(EXISTS "${_dekorihe}/lib/libtcrx.so.0")
        add_library(dekorihe::tcrx SHARED IMPORTED)
        set_target_properties(dekorihe::tcrx PROPERTIES
            IMPORTED_LOCATION "${_dekorihe}/lib/libtcrx.so.0"
            IMPORTED_SONAME "libtcrx.so.0"
            INTERFACE_INCLUDE_DIRECTORIES "${_dekorihe}/include")
    endif()
endif()

unset(_dekorihe)
