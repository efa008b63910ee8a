/*
 * The program tclive over the library for C: `tclive --scid N [--fecf]` answers each line of standard input.
 * docs/reference/tclive.md describes the program.
 */
#include "lines.h"

static const command_line live = {
    .name = "tclive",
    .usage = "Usage: tclive --scid N [--fecf]",
    .help = "Receives telecommand frames line by line: answers the lines of standard input\n"
            "\n"
            "Usage: tclive --scid N [--fecf]\n"
            "\n"
            "  --scid N       the spacecraft id, from 0 to 1023\n"
            "  --fecf         each frame must end with a valid frame error control field\n"
            "  -h, --help     prints this help\n"
            "  -V, --version  prints the version\n"
            "\n"
            "The lines are on the pages docs/reference/scripts.md and docs/reference/tclive.md.",
    .options = SCID | FECF | VERSION,
};

/* Returns whether the program runs a script. It does that if it is started as `live run --scid N`. Until version 0.3.0
 * its name was `live`, and callers may still use that command. */
static bool is_script(int count, char **word) {
    const char *const slash = count > 1 ? strrchr(word[0], '/') : NULL;
    return count > 1 && strcmp(slash != NULL ? slash + 1 : word[0], "live") == 0 && strcmp(word[1], "run") == 0;
}

int main(int count, char **word) {
    command_line of = live;
    given_words given = {0, 0};
    const bool is_run = is_script(count, word);
    if (is_run) {
        of.options = SCID;
    }
    int status = read_words(&of, count, word, 1 + is_run, &given);
    if (status != GO_ON) {
        return status;
    }
    if (is_run) {
        return run_script(given.scid);
    }
    if (tcrx_lines_live(&session, given.scid, (given.options & FECF) != 0) != TCRX_DONE) {
        return fail("tclive: ", "no memory");
    }
    status = answer_input("tclive: ", false);
    if (status == DONE && tcrx_lines_saw_check_sums(&session).flag) {
        fprintf(stderr, "tclive: each frame ended with a frame error control field, which was treated as data; tclive --fecf checks and removes it\n");
    }
    return status;
}
