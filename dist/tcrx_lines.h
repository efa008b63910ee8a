/**
 * @file tcrx_lines.h
 * @brief Lines of text, answered as the programs tclive, tcrx and tcmake answer them, for C99 and C++11.
 *
 * A session takes one line at a time, and writes the text of its answer into a buffer of yours. There are three kinds
 * of sessions. tcrx_lines_live() creates a receiver that answers as `tclive` does, tcrx_lines_script() a receiver that
 * carries out a script as `tcrx run` does, and tcrx_lines_make() a maker that answers as `tcmake` does. Unless memory
 * runs out, the texts are proved to be those that the programs print, octet for octet.
 *
 * @par Results, pointers and threads
 * The rules of tcrx.h on statuses, pointers and threads hold for a session as they do for a channel. In the calls of
 * this header, a pointer to a line or to a buffer may be null if its count is 0.
 *
 * @par A text that doesn't fit
 * If the buffer is too short for a text, the call fails with #TCRX_NO_ROOM, and `length` is the number of octets that
 * the text needs. The buffer stays as it was, and the text waits until tcrx_lines_text() returns it. The line was
 * carried out once, and isn't carried out again.
 *
 * @par Memory
 * A session requests memory as it needs it, through rattle_alloc and rattle_realloc, and returns it to rattle_dealloc.
 * tcrx_memory.c defines rattle_alloc and rattle_dealloc, and tcrx_lines_memory.c defines rattle_realloc.
 */
#ifndef TCRX_LINES_H
#define TCRX_LINES_H

#include "tcrx.h"

#ifdef __cplusplus
extern "C" {
#endif

/**
 * @defgroup tcrx_lines_status Statuses of a session
 * @{
 */

/** The values of a #tcrx_status that only the calls of a session return. */
enum {
    TCRX_NO_SESSION = 100,     /**< No session is held. */
    TCRX_SESSION_IN_USE = 101, /**< A session is already held. */
    TCRX_BAD_SCID = 102,       /**< The spacecraft id is over 1,023. */
    TCRX_BAD_LINE = 103,       /**< The script ends here, and the text says why. */
    TCRX_WAITING = 104,        /**< The text of an earlier call still waits, so nothing was done. */
    TCRX_LOST = 105,           /**< Memory ran out at an answer, which is lost, so no more lines are answered. */
    TCRX_OVER = 106            /**< The lines have ended, so no more lines are answered. */
};
/** @} */

/**
 * @defgroup tcrx_lines_records Records of a session
 * @{
 */

/**
 * A session in the caller's memory, or none. Set it to #TCRX_HOLDS_NONE before the first call, and don't write to it
 * after that.
 *
 * A copy of this record isn't a second session. You may move a session to another place, if you set the old place to
 * #TCRX_HOLDS_NONE before the next call. A session that is still held when the lifetime of this memory ends isn't freed.
 */
typedef struct {
    uint8_t held; /**< 1 if a session is held, otherwise 0. */
    void *place;  /**< The library's own data. */
} tcrx_lines;

/** A status with a flag. */
typedef struct {
    tcrx_status status; /**< #TCRX_DONE, or the reason why the call failed. */
    uint8_t flag;       /**< The flag, 0 or 1. */
} tcrx_flag_answer;
/** @} */

/**
 * @defgroup tcrx_lines_library Calls of the library
 *
 * The library exports these calls. Never pass them a null pointer, not even for a line without octets or a buffer without
 * room. Callers in C use the names without `_at`. They check for null pointers, and aren't proved.
 * @{
 */
/** @copydoc tcrx_lines_live */
tcrx_status tcrx_lines_live_at(tcrx_lines *lines, uint16_t scid, uint8_t fecf);
/** @copydoc tcrx_lines_script */
tcrx_status tcrx_lines_script_at(tcrx_lines *lines, uint16_t scid);
/** @copydoc tcrx_lines_make */
tcrx_status tcrx_lines_make_at(tcrx_lines *lines, uint8_t fecf);
/** @copydoc tcrx_lines_answer */
tcrx_written tcrx_lines_answer_at(tcrx_lines *lines, const uint8_t *line, size_t count, uint8_t *text, size_t room);
/** @copydoc tcrx_lines_text */
tcrx_written tcrx_lines_text_at(tcrx_lines *lines, uint8_t *text, size_t room);
/** @copydoc tcrx_lines_end */
tcrx_written tcrx_lines_end_at(tcrx_lines *lines, uint8_t *text, size_t room);
/** @copydoc tcrx_lines_saw_check_sums */
tcrx_flag_answer tcrx_lines_saw_check_sums_at(tcrx_lines *lines);
/** @copydoc tcrx_lines_free */
tcrx_status tcrx_lines_free_at(tcrx_lines *lines);
/** @} */

/**
 * @defgroup tcrx_lines_calls Calls of a session
 * @{
 */

/**
 * Creates a session that answers lines as `tclive` does: a receiver for which nothing is set up.
 *
 * @param lines the memory for the session
 * @param scid  the spacecraft id, 0 to 1,023
 * @param fecf  1 if frames end with a frame error control field, which is checked and removed, otherwise 0
 * @return #TCRX_DONE. The call fails with #TCRX_NULL, #TCRX_SESSION_IN_USE, #TCRX_BAD_SCID, #TCRX_BAD_FLAG, or
 * #TCRX_NO_MEMORY.
 */
TCRX_TO_BE_READ static inline tcrx_status tcrx_lines_live(tcrx_lines *lines, uint16_t scid, uint8_t fecf) {
    if (lines == NULL) {
        return TCRX_NULL;
    }
    return tcrx_lines_live_at(lines, scid, fecf);
}

/**
 * Creates a session that carries out a script as `tcrx run` does: a receiver for which nothing is set up. It ends at
 * the first bad line.
 *
 * @param lines the memory for the session
 * @param scid  the spacecraft id, 0 to 1,023
 * @return #TCRX_DONE. The call fails with #TCRX_NULL, #TCRX_SESSION_IN_USE, #TCRX_BAD_SCID, or #TCRX_NO_MEMORY.
 */
TCRX_TO_BE_READ static inline tcrx_status tcrx_lines_script(tcrx_lines *lines, uint16_t scid) {
    if (lines == NULL) {
        return TCRX_NULL;
    }
    return tcrx_lines_script_at(lines, scid);
}

/**
 * Creates a session that answers lines as `tcmake` does: a maker that has made nothing.
 *
 * @param lines the memory for the session
 * @param fecf  1 if frames end with a frame error control field, otherwise 0
 * @return #TCRX_DONE. The call fails with #TCRX_NULL, #TCRX_SESSION_IN_USE, #TCRX_BAD_FLAG, or #TCRX_NO_MEMORY.
 */
TCRX_TO_BE_READ static inline tcrx_status tcrx_lines_make(tcrx_lines *lines, uint8_t fecf) {
    if (lines == NULL) {
        return TCRX_NULL;
    }
    return tcrx_lines_make_at(lines, fecf);
}

/**
 * Carries out a line, and writes the text of its answer to the front of a buffer. Many lines have an answer without
 * octets. The answer of one line may be several lines, each with its line feed.
 *
 * If the status is #TCRX_BAD_LINE, the text is the reason why the script ends at this line, as `tcrx` prints it. After
 * #TCRX_NO_MEMORY nothing was done, and the line can be given again.
 *
 * @param lines the session
 * @param line  the line, without its line feed
 * @param count the number of octets in the line. A receiver answers a line of more than 8,192 octets with `bad too long`,
 * and a maker a line of more than 262,143 octets. It is enough to pass one octet more than that of such a line. A
 * script's lines have no limit.
 * @param text  the buffer to write to
 * @param room  the size of the buffer, in octets
 * @return the length of the text. The call fails with #TCRX_NULL, #TCRX_NO_SESSION, #TCRX_WAITING, #TCRX_OVER,
 * #TCRX_NO_MEMORY, #TCRX_LOST, #TCRX_NO_ROOM if the buffer is too short, or #TCRX_BAD_LINE if the text says why the
 * script ends.
 */
static inline tcrx_written tcrx_lines_answer(tcrx_lines *lines, const uint8_t *line, size_t count, uint8_t *text, size_t room) {
    uint8_t none = 0;
    if (lines == NULL || (line == NULL && count != 0) || (text == NULL && room != 0)) {
        const tcrx_written refused = {TCRX_NULL, 0};
        return refused;
    }
    return tcrx_lines_answer_at(lines, line == NULL ? &none : line, count, text == NULL ? &none : text, room);
}

/**
 * Returns the text that waits because an earlier buffer was too short for it. If no text waits, the text is empty.
 *
 * @param lines the session
 * @param text  the buffer to write to
 * @param room  the size of the buffer, in octets
 * @return the length of the text, with the status that the earlier call would have returned if the buffer had been long
 * enough. The call fails with #TCRX_NULL, #TCRX_NO_SESSION, or #TCRX_NO_ROOM if this buffer is too short, too.
 */
static inline tcrx_written tcrx_lines_text(tcrx_lines *lines, uint8_t *text, size_t room) {
    uint8_t none = 0;
    if (lines == NULL || (text == NULL && room != 0)) {
        const tcrx_written refused = {TCRX_NULL, 0};
        return refused;
    }
    return tcrx_lines_text_at(lines, text == NULL ? &none : text, room);
}

/**
 * Ends the lines, and writes the final report of a receiver's channels to the front of a buffer. The report of a maker
 * has no octets. After this call no more lines are answered.
 *
 * If the status is #TCRX_BAD_LINE, there is no report, and the text is the reason, as the program prints it.
 *
 * @param lines the session
 * @param text  the buffer to write to
 * @param room  the size of the buffer, in octets
 * @return the length of the text. The call fails with #TCRX_NULL, #TCRX_NO_SESSION, #TCRX_WAITING, #TCRX_OVER,
 * #TCRX_NO_MEMORY, #TCRX_LOST, #TCRX_NO_ROOM if the buffer is too short, or #TCRX_BAD_LINE if the text says why there is
 * no report.
 */
static inline tcrx_written tcrx_lines_end(tcrx_lines *lines, uint8_t *text, size_t room) {
    uint8_t none = 0;
    if (lines == NULL || (text == NULL && room != 0)) {
        const tcrx_written refused = {TCRX_NULL, 0};
        return refused;
    }
    return tcrx_lines_end_at(lines, text == NULL ? &none : text, room);
}

/**
 * Tells whether frames were brought to a receiver that checks no frame error control fields, and each of these frames
 * ended with a right one. The programs then print a hint at their end. The answer stays the same after
 * tcrx_lines_end().
 *
 * @param lines the session
 * @return the flag. The call fails with #TCRX_NULL, then #TCRX_NO_SESSION.
 */
static inline tcrx_flag_answer tcrx_lines_saw_check_sums(tcrx_lines *lines) {
    if (lines == NULL) {
        const tcrx_flag_answer refused = {TCRX_NULL, 0};
        return refused;
    }
    return tcrx_lines_saw_check_sums_at(lines);
}

/**
 * Frees the session. Another session can then be created in its place.
 *
 * @param lines the session
 * @return #TCRX_DONE. The call fails with #TCRX_NULL, then #TCRX_NO_SESSION.
 */
static inline tcrx_status tcrx_lines_free(tcrx_lines *lines) {
    if (lines == NULL) {
        return TCRX_NULL;
    }
    return tcrx_lines_free_at(lines);
}
/** @} */

#ifdef __cplusplus
}
#endif

#endif
