/*
 * The program tcrx over the library for C, without its command `parallel`: `tcrx run --scid N` runs the script on
 * standard input. docs/reference/tcrx.md describes the program.
 */
#include "lines.h"

static const command_line any = {
    .name = "tcrx",
    .usage = "Usage: tcrx run --scid N < SCRIPT",
    .help = "Receives telecommand frames: runs a script that it reads from standard input\n"
            "\n"
            "Usage: tcrx run --scid N < SCRIPT\n"
            "\n"
            "  --scid N       the spacecraft id, from 0 to 1023\n"
            "  -h, --help     prints this help\n"
            "  -V, --version  prints the version\n"
            "\n"
            "The lines of a script are on the page docs/reference/scripts.md. The command parallel needs the proved program.",
    .options = VERSION,
};

int main(int count, char **word) {
    const char *const command = count > 1 ? word[1] : "";
    const bool is_parallel = strcmp(command, "parallel") == 0, is_command = is_parallel || strcmp(command, "run") == 0;
    command_line of = any;
    given_words given = {0, 0};
    if (is_command) {
        of.options = SCID;
    }
    const int status = read_words(&of, count, word, 1 + is_command, &given);
    if (status != GO_ON) {
        return status;
    }
    if (!is_command) {
        return refuse(&of, "run", "is missing");
    }
    if (is_parallel) {
        fprintf(stderr, "tcrx: parallel needs the proved program, and this is the one that dist builds without a proof\n");
        return NOT_BUILT;
    }
    return run_script(given.scid);
}
