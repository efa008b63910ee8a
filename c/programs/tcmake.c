/*
 * The program tcmake over the library for C: `tcmake [--fecf] [--strict]` makes and explains frames, packets, CLTUs and
 * telemetry frames by the lines of standard input. docs/reference/tcmake.md describes the program.
 */
#include "lines.h"

static const command_line maker = {
    .name = "tcmake",
    .usage = "Usage: tcmake [--fecf] [--strict]",
    .help = "Makes and explains telecommand frames, packets, CLTUs and telemetry frames: answers the lines of standard input\n"
            "\n"
            "Usage: tcmake [--fecf] [--strict]\n"
            "\n"
            "  --fecf         frames end with a frame error control field\n"
            "  --strict       exits with status 1 after the answer to the first bad line\n"
            "  -h, --help     prints this help\n"
            "  -V, --version  prints the version\n"
            "\n"
            "The lines are on the page docs/reference/tcmake.md.",
    .options = FECF | STRICT | VERSION,
};

int main(int count, char **word) {
    given_words given = {0, 0};
    const int status = read_words(&maker, count, word, 1, &given);
    if (status != GO_ON) {
        return status;
    }
    if (tcrx_lines_make(&session, (given.options & FECF) != 0) != TCRX_DONE) {
        return fail("tcmake: ", "no memory");
    }
    return answer_input("tcmake: ", (given.options & STRICT) != 0);
}
