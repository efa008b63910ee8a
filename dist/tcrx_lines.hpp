/**
 * @file tcrx_lines.hpp
 * @brief Sessions that answer lines of text, for C++17, over tcrx_lines.h. The header needs no exceptions and no RTTI.
 *
 * @par Proofs
 * The functions of the library are proved. This header is not. It passes each argument on, keeps the text of an answer,
 * and frees a session once. Tests check that, with the cases of the programs.
 *
 * @par Memory
 * A session requests memory as it needs it, as tcrx_lines.h describes. This header requests a buffer for the texts by
 * `new`, which grows to the longest text. libtcrx.so has the functions for the session's memory over malloc. With
 * libtcrx.a, link tcrx_memory.c and tcrx_lines_memory.c.
 *
 * @par Where there are sessions
 * The library has sessions on x86-64 and aarch64. In portable C they are missing, and this header doesn't compile there.
 * tcrx.hpp doesn't need it.
 */
#pragma once

#if !defined(__ELF__) || !defined(__LP64__) || (!defined(__x86_64__) && !defined(__aarch64__))
#error "there are no sessions of lines for this processor: they need a library for x86-64 or aarch64, and this one is in portable C"
#endif

#include "tcrx.hpp"
#include "tcrx_lines.h"

#include <cstddef>
#include <cstdint>
#include <memory>
#include <new>
#include <string_view>
#include <utility>

namespace tcrx {

/** The answer to a line, or the reason why there is none. */
struct [[nodiscard]] Answer {
    /** Status::done, or the reason why the call failed. */
    Status status = Status::done;
    /** The text, which consists of lines with their line feeds, or is empty. It is valid until the next call of the
     * session. If the status is Session::bad_line, the text is the reason, as the program prints it. */
    std::string_view text;
    /** The number of octets that a buffer needs for the text if the status is Status::no_room, otherwise 0. */
    std::size_t needed = 0;

    constexpr explicit operator bool() const noexcept { return status == Status::done; }
};

/**
 * A session, which answers lines of text as the program `tclive`, `tcrx` or `tcmake` does, or none. It can be moved but
 * not copied, and is freed when its lifetime ends. A session that was moved from, freed or never created holds none, and
 * each call on it fails with Session::no_session.
 *
 * Only one call at a time may use a session. Threads that share a session need a lock.
 */
class Session {
public:
    /** No session is held. */
    static constexpr Status no_session = static_cast<Status>(TCRX_NO_SESSION);
    /** The spacecraft id is over 1,023. */
    static constexpr Status bad_scid = static_cast<Status>(TCRX_BAD_SCID);
    /** The script ends here, or there is no final report. The text says why. */
    static constexpr Status bad_line = static_cast<Status>(TCRX_BAD_LINE);
    /** The text of an earlier call still waits, so nothing was done. text() returns it. */
    static constexpr Status waiting = static_cast<Status>(TCRX_WAITING);
    /** Memory ran out at an answer, which is lost, so no more lines are answered. */
    static constexpr Status lost = static_cast<Status>(TCRX_LOST);
    /** The lines have ended, so no more lines are answered. */
    static constexpr Status over = static_cast<Status>(TCRX_OVER);

    /** Creates a session that answers lines as `tclive` does: tcrx_lines_live(). */
    static Result<Session> live(std::uint16_t scid, bool fecf = false) noexcept {
        Session made;
        const tcrx_status status = tcrx_lines_live(&made.held_, scid, detail::flag(fecf));
        return begun(made, status);
    }

    /** Creates a session that carries out a script as `tcrx run` does: tcrx_lines_script(). */
    static Result<Session> script(std::uint16_t scid) noexcept {
        Session made;
        const tcrx_status status = tcrx_lines_script(&made.held_, scid);
        return begun(made, status);
    }

    /** Creates a session that answers lines as `tcmake` does: tcrx_lines_make(). */
    static Result<Session> make(bool fecf = false) noexcept {
        Session made;
        const tcrx_status status = tcrx_lines_make(&made.held_, detail::flag(fecf));
        return begun(made, status);
    }

    Session() noexcept = default;
    Session(const Session &) = delete;
    Session &operator=(const Session &) = delete;
    Session(Session &&other) noexcept
        : held_(std::exchange(other.held_, tcrx_lines{0, nullptr})), buffer_(std::move(other.buffer_)), room_(std::exchange(other.room_, 0)) {}
    Session &operator=(Session &&other) noexcept {
        const tcrx_lines taken = std::exchange(other.held_, tcrx_lines{0, nullptr});
        std::unique_ptr<std::uint8_t[]> buffer = std::move(other.buffer_);
        const std::size_t room = std::exchange(other.room_, 0);
        free();
        held_ = taken;
        buffer_ = std::move(buffer);
        room_ = room;
        return *this;
    }
    ~Session() { free(); }

    /** Returns whether a session is held. */
    bool is_held() const noexcept { return held_.held == 1; }

    /**
     * Carries out a line, which has no line feed at its end: tcrx_lines_answer().
     *
     * After Status::no_memory nothing was done, and the line can be given again. If there is too little memory for the
     * channel, queue or MAP that a line sets up, a receiver answers `bad no memory`, as tclive does, and a script ends.
     * After Status::no_room there is too little memory for the buffer, and the text waits. text() returns it.
     */
    Answer answer(std::string_view line) noexcept {
        const auto *const octets = reinterpret_cast<const std::uint8_t *>(line.data());
        return whole(tcrx_lines_answer(&held_, octets, line.size(), buffer_.get(), room_));
    }

    /** Returns the text that waits, with the status that the earlier call would have returned. If no text waits, the
     * text is empty. */
    Answer text() noexcept { return whole(tcrx_lines_text(&held_, buffer_.get(), room_)); }

    /** Ends the lines, and returns the final report of a receiver's channels: tcrx_lines_end(). The report of a maker
     * is empty. */
    Answer end() noexcept { return whole(tcrx_lines_end(&held_, buffer_.get(), room_)); }

    /** Returns whether frames came to a receiver that checks no frame error control fields, and each ended with a right
     * one: tcrx_lines_saw_check_sums(). */
    Result<bool> saw_check_sums() noexcept {
        const tcrx_flag_answer seen = tcrx_lines_saw_check_sums(&held_);
        return seen.status == TCRX_DONE ? Result<bool>(seen.flag == 1) : detail::refused(seen.status);
    }

    /** Frees the session before its lifetime ends. Returns Session::no_session if none is held. */
    Status free() noexcept {
        buffer_.reset();
        room_ = 0;
        return static_cast<Status>(tcrx_lines_free(&held_));
    }

private:
    static Result<Session> begun(Session &made, tcrx_status status) noexcept {
        if (status != TCRX_DONE) {
            return detail::refused(status);
        }
        return std::move(made);
    }

    // Returns the whole text of a call. The buffer grows if it is too short.
    Answer whole(tcrx_written written) noexcept {
        while (written.status == TCRX_NO_ROOM) {
            std::unique_ptr<std::uint8_t[]> larger(new (std::nothrow) std::uint8_t[written.length]);
            if (!larger) {
                return {Status::no_room, {}, written.length};
            }
            buffer_ = std::move(larger);
            room_ = written.length;
            written = tcrx_lines_text(&held_, buffer_.get(), room_);
        }
        const bool is_text = written.status == TCRX_DONE || written.status == TCRX_BAD_LINE;
        const auto *const characters = reinterpret_cast<const char *>(buffer_.get());
        return {static_cast<Status>(written.status), is_text ? std::string_view(characters, written.length) : std::string_view(), 0};
    }

    tcrx_lines held_ = {0, nullptr};
    std::unique_ptr<std::uint8_t[]> buffer_;
    std::size_t room_ = 0;
};

}  // namespace tcrx
