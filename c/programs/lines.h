/*
 * This header is the shared part of tcrx.c, tclive.c and tcmake.c. It reads the words of the command line, passes the
 * lines of standard input to a session of the library, and writes the answers to standard output. The session's answers
 * are proved to be those of the programs tcrx, tclive and tcmake, unless memory runs out. This file isn't proved.
 * checks/dist_programs compares the output of its programs with that of the proved programs.
 */
#ifndef TCRX_PROGRAMS_LINES_H
#define TCRX_PROGRAMS_LINES_H

#include <tcrx_lines.h>

#include <errno.h>
#include <stdbool.h>
#include <stdio.h>
#include <stdlib.h>
#include <string.h>
#include <unistd.h>

/* An exit status, or GO_ON if the program doesn't exit yet. */
enum { GO_ON = -1, DONE = 0, FAILED = 1, BAD_COMMAND_LINE = 2, NOT_BUILT = 70 };

static inline bool is_written(void) {
    return fflush(stdout) == 0 && !ferror(stdout);
}

/* Prints on standard error the reason why no more lines are answered. */
static inline int fail(const char *begin, const char *why) {
    fflush(stdout);
    fprintf(stderr, "%s%s\n", begin, why);
    return FAILED;
}

/* --- The command line --- */

/* The options that a command line may have, besides --help. */
enum { SCID = 1, FECF = 2, STRICT = 4, VERSION = 8 };

typedef struct {
    const char *name, *usage, *help;
    unsigned options;
} command_line;

typedef struct {
    unsigned options;
    uint16_t scid;
} given_words;

/* Prints a wrong word and the reason on standard error. */
static inline int refuse(const command_line *of, const char *word, const char *why) {
    fprintf(stderr, "%s: %s %s\n%s\n", of->name, word, why, of->usage);
    return BAD_COMMAND_LINE;
}

static inline int print(const command_line *of, const char *what, const char *more) {
    printf("%s%s\n", what, more);
    return is_written() ? DONE : fail(of->name, ": cannot write");
}

/* Returns whether a word is UTF-8, without overlong forms, surrogates and characters above U+10FFFF. */
static inline bool is_utf8(const char *word) {
    for (const unsigned char *at = (const unsigned char *)word; *at != 0;) {
        const unsigned first = *at++;
        unsigned least = first == 0xe0 ? 0xa0 : first == 0xf0 ? 0x90 : 0x80, most = first == 0xed ? 0x9f : first == 0xf4 ? 0x8f : 0xbf;
        int more = first < 0x80 ? 0 : first < 0xc2 || first > 0xf4 ? -1 : first < 0xe0 ? 1 : first < 0xf0 ? 2 : 3;
        for (; more > 0 && *at >= least && *at <= most; at++, more--) {
            least = 0x80;
            most = 0xbf;
        }
        if (more != 0) {
            return false;
        }
    }
    return true;
}

/* Prints on standard error a word that isn't UTF-8, with escapes. */
static inline int refuse_octets(const command_line *of, int place, const char *word) {
    static const char escaped[] = "\t\r\n'\"\\", letters[] = "trn'\"\\";
    fprintf(stderr, "%s: word %d isn't valid UTF-8: ", of->name, place);
    for (; *word != '\0'; word++) {
        const char *const found = strchr(escaped, *word);
        if (found != NULL) {
            fprintf(stderr, "\\%c", letters[found - escaped]);
        } else {
            fprintf(stderr, *word >= ' ' && *word <= '~' ? "%c" : "\\x%02x", (unsigned)(unsigned char)*word);
        }
    }
    fputc('\n', stderr);
    return BAD_COMMAND_LINE;
}

static inline bool read_scid(const char *word, uint16_t *scid) {
    unsigned number = 0;
    word += *word == '+';
    const char *at = word;
    for (; *at >= '0' && *at <= '9' && number <= 1023; at++) {
        number = 10 * number + (unsigned)(*at - '0');
    }
    *scid = (uint16_t)number;
    return at != word && *at == '\0' && number <= 1023;
}

/* Returns whether a word is this long option, or begins with the letter that is short for it. */
static inline bool is_option(const char *word, const char *letter, const char *option) {
    return strncmp(word, letter, 2) == 0 || strcmp(word, option) == 0;
}

/* Returns the option that a word names, or 0. */
static inline unsigned option_of(const char *word) {
    if (strncmp(word, "--scid", 6) == 0 && (word[6] == '\0' || word[6] == '=')) {
        return SCID;
    }
    return strcmp(word, "--fecf") == 0 ? FECF : strcmp(word, "--strict") == 0 ? STRICT : is_option(word, "-V", "--version") ? VERSION : 0;
}

/* Reads the words from `at` on. Prints help, the version, or the fault of a word. Returns the exit status or GO_ON. */
static inline int read_words(const command_line *of, int count, char **word, int at, given_words *given) {
    for (int place = 0; place < count; place++) {
        if (!is_utf8(word[place])) {
            return refuse_octets(of, place, word[place]);
        }
    }
    for (; at < count; at++) {
        const char *const it = word[at];
        const unsigned option = option_of(it) & of->options;
        if (strcmp(it, "--") == 0 && at == count - 1) {
            continue;
        }
        if (is_option(it, "-h", "--help")) {
            return print(of, of->help, "");
        }
        if (option == VERSION) {
            return print(of, of->name, " " TCRX_API_TEXT);
        }
        if (option == 0 || (given->options & option) != 0) {
            return refuse(of, it, option == 0 ? "isn't an option or a command here" : "is given twice");
        }
        given->options |= option;
        if (option == SCID && !read_scid(it[6] == '=' ? it + 7 : at + 1 < count ? word[++at] : "", &given->scid)) {
            return refuse(of, "--scid", "takes the spacecraft id, a number from 0 to 1023");
        }
    }
    return (of->options & SCID & ~given->options) == 0 ? GO_ON : refuse(of, "--scid N", "is missing");
}

/* --- The session --- */

static tcrx_lines session = TCRX_HOLDS_NONE;
/* The text of an answer is in a buffer that is long enough for most texts, or in a larger one. */
static uint8_t usual[147456], *larger, *text = usual;
static size_t room = sizeof usual;

/* Returns the whole answer. If the buffer is too short, a longer one is allocated, and the session then writes the text. */
static inline tcrx_written whole(tcrx_written answer) {
    while (answer.status == TCRX_NO_ROOM) {
        uint8_t *const made = realloc(larger, answer.length);
        if (made == NULL) {
            answer.status = TCRX_LOST;
            return answer;
        }
        text = larger = made;
        room = answer.length;
        answer = tcrx_lines_text(&session, text, room);
    }
    return answer;
}

/* Writes an answer. If the session gives a reason instead, writes that on standard error. Every other status means that
 * memory has run out. */
static inline int put(const char *begin, tcrx_written answer) {
    if (answer.status == TCRX_DONE) {
        fwrite(text, 1, answer.length, stdout);
        return GO_ON;
    }
    if (answer.status != TCRX_BAD_LINE) {
        return fail(begin, "no memory");
    }
    fflush(stdout);
    fprintf(stderr, "%s%.*s", begin, (int)answer.length, (char *)text);
    return FAILED;
}

/* --- Lines that are answered as they come --- */

static uint8_t chunk[65536], line[262144];
static size_t length;

/* Returns whether an answer begins with `bad `. */
static inline bool is_bad(size_t count) {
    for (size_t at = 0; at + 4 <= count; at++) {
        if (memcmp(text + at, "bad ", 4) == 0 && (at == 0 || text[at - 1] == '\n')) {
            return true;
        }
    }
    return false;
}

static inline int answer_line(const char *begin, bool is_strict) {
    static const char no_memory[] = "bad no memory\n";
    tcrx_written answer = whole(tcrx_lines_answer(&session, line, length, text, room));
    length = 0;
    if (answer.status == TCRX_NO_MEMORY) {
        /* The line was not carried out, and the next line is answered. */
        memcpy(text, no_memory, sizeof no_memory - 1);
        answer = (tcrx_written){TCRX_DONE, sizeof no_memory - 1};
    }
    const int status = put(begin, answer);
    if (status != GO_ON || !is_strict) {
        return status;
    }
    if (!is_bad(answer.length)) {
        return GO_ON;
    }
    return fail(begin, is_written() ? "a line is bad, and no later line was answered" : "cannot write");
}

/* Adds octets to the line. Octets beyond the room are dropped, because the line is too long in any case. */
static inline void keep(const uint8_t *octets, size_t more) {
    const size_t fits = more < sizeof line - length ? more : sizeof line - length;
    memcpy(line + length, octets, fits);
    length += fits;
}

/* Answers the lines that end within these octets. */
static inline int answer_all(const char *begin, bool is_strict, const uint8_t *at, size_t left) {
    for (const uint8_t *feed; (feed = memchr(at, '\n', left)) != NULL; at = feed + 1) {
        keep(at, (size_t)(feed - at));
        left -= (size_t)(feed - at) + 1;
        const int status = answer_line(begin, is_strict);
        if (status != GO_ON) {
            return status;
        }
    }
    keep(at, left);
    return GO_ON;
}

/* Answers standard input. The lines of one read are answered before the next read. Their answers are written at once, unless they are
 * longer than the buffer. */
static inline int answer_input(const char *begin, bool is_strict) {
    static char answers[524288];
    setvbuf(stdout, answers, _IOFBF, sizeof answers);
    for (;;) {
        const ssize_t came = read(STDIN_FILENO, chunk, sizeof chunk);
        if (came < 0 && errno == EINTR) {
            continue;
        }
        int status = came < 0 ? fail(begin, "cannot read") : came > 0 ? answer_all(begin, is_strict, chunk, (size_t)came)
            : length > 0 ? answer_line(begin, is_strict) : GO_ON;
        if (status == GO_ON && came == 0) {
            status = put(begin, whole(tcrx_lines_end(&session, text, room)));
        }
        if (status == GO_ON && !is_written()) {
            status = fail(begin, "cannot write");
        }
        if (status != GO_ON || came == 0) {
            return status == GO_ON ? DONE : status;
        }
    }
}

/* --- Scripts --- */

enum { LONGEST_SCRIPT = 1048576 };

/* Writes an answer to a script after `count` of its lines. */
static inline int put_of_script(tcrx_written answer, unsigned count) {
    char begin[32] = "";
    if (answer.status != TCRX_DONE && !is_written()) {
        return fail("line 0: ", "cannot write");
    }
    if (answer.status != TCRX_BAD_LINE) {
        snprintf(begin, sizeof begin, "line %u: ", count);
    }
    return put(begin, answer);
}

/* Reads the script on standard input whole, and then runs it. */
static inline int run_script(uint16_t scid) {
    static uint8_t script[LONGEST_SCRIPT + 1];
    size_t have = 0;
    unsigned count = 0;
    int status = tcrx_lines_script(&session, scid) == TCRX_DONE ? GO_ON : fail("line 0: ", "no memory");
    for (ssize_t came = 1; status == GO_ON && came != 0 && have < sizeof script; have += came > 0 ? (size_t)came : 0) {
        came = read(STDIN_FILENO, script + have, sizeof script - have);
        status = came >= 0 || errno == EINTR ? GO_ON : fail("line 0: ", "cannot read");
    }
    if (status == GO_ON && have > LONGEST_SCRIPT) {
        status = fail("line 0: ", "too long");
    }
    for (const uint8_t *at = script, *end = script + have; status == GO_ON && at < end;) {
        const uint8_t *const feed = memchr(at, '\n', (size_t)(end - at));
        status = put_of_script(whole(tcrx_lines_answer(&session, at, (size_t)((feed != NULL ? feed : end) - at), text, room)), ++count);
        at = feed != NULL ? feed + 1 : end;
    }
    if (status == GO_ON) {
        status = put_of_script(whole(tcrx_lines_end(&session, text, room)), count);
    }
    if (status == GO_ON && !is_written()) {
        status = fail("line 0: ", "cannot write");
    }
    if (status == GO_ON && tcrx_lines_saw_check_sums(&session).flag) {
        fprintf(stderr, "tcrx: each frame ends with a frame error control field, which tcrx treats as data; tclive --fecf checks and removes it\n");
    }
    return status == GO_ON ? DONE : status;
}
#endif
