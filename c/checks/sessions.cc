// Passes the stored cases to sessions of tcrx_lines.hpp, line by line, for checks/bindings: scripts as `tcrx run` does,
// and the input of `tclive` and `tcmake`. Checks each error, and sessions that are moved, freed and used after that.
// Refuses each request for memory in turn, including those of the buffer for texts. The program is linked with
// c/checks/refusing_memory.c. The last line of the output is the number of checks that passed.
//
//    sessions CRATES    the folder of the crates, which has the cases
#include "../../dist/tcrx_lines.hpp"

#include <cstdint>
#include <cstdio>
#include <fstream>
#include <iterator>
#include <new>
#include <sstream>
#include <string>
#include <string_view>
#include <utility>
#include <vector>

extern "C" long tcrx_refuse(long growth);
extern "C" long tcrx_blocks();

namespace {

using tcrx::Answer;
using tcrx::Session;
using tcrx::Status;

std::string crates;
bool texts_are_refused = false;
int passed = 0;
int failed = 0;

void expect(bool good, const std::string &what) {
    (good ? passed : failed) += 1;
    if (!good) {
        std::printf("sessions: %s: WRONG\n", what.c_str());
    }
}

std::string stored(const std::string &path) {
    std::ifstream file(crates + "/" + path, std::ios::binary);
    return {std::istreambuf_iterator<char>(file), std::istreambuf_iterator<char>()};
}

std::vector<std::string> lines_of(const std::string &script) {
    std::vector<std::string> lines;
    std::istringstream from(script);
    for (std::string line; std::getline(from, line);) {
        lines.push_back(line);
    }
    return lines;
}

// Returns the texts of the answers to lines, then that of the final report, or the reason why a script ended.
// Checks that no more lines are answered after that.
std::string come_of(Session session, const std::string &script) {
    std::string texts;
    Answer last;
    for (const std::string &line : lines_of(script)) {
        if (last) {
            last = session.answer(line);
            texts += last.text;
        }
    }
    if (last) {
        last = session.end();
        texts += last.text;
    }
    const bool has_ended = last || last.status == Session::bad_line;
    const bool is_over = session.answer("clcw 1").status == Session::over && session.end().status == Session::over;
    return has_ended && is_over ? texts : "a session that ends otherwise";
}

void check_cases() {
    std::istringstream index(stored("conformance/data/index"));
    int cases = 0, faults = 0;
    for (std::string line; std::getline(index, line);) {
        std::istringstream words(line);
        std::string name, fault;
        unsigned scid = 0;
        words >> name >> scid >> std::ws;
        std::getline(words, fault);
        const std::string data = "conformance/data/" + name;
        const std::string come = come_of(*Session::script(static_cast<std::uint16_t>(scid)), stored(data + ".script"));
        expect(come == stored(data + ".out") + fault + (fault.empty() ? "" : "\n"), "case " + name);
        cases++;
        faults += fault.empty() ? 0 : 1;
    }
    expect(cases > 100 && faults > 40, std::to_string(cases) + " cases, " + std::to_string(faults) + " of them with a fault");
    expect(come_of(*Session::live(42), stored("tclive/stdin")) == stored("tclive/stdout"), "the lines of tclive");
    expect(come_of(*Session::make(), stored("tcmake/stdin")) == stored("tcmake/stdout"), "the lines of tcmake");
    std::printf("sessions: %d cases\n", cases);
}

void check_sums() {
    // The frame of a packet, with its frame error control field, which another program computed as CRC-16-CCITT.
    const std::string frame = "frame 002a040e00c01005c0000000aa6b6e", wrong = "frame 002a040e00c01005c0000000aa0000";
    Session maker = *Session::make(true);
    expect(maker.answer("ad 42 1 0 0 1005c0000000aa").text == frame + "\n", "a frame that ends with a field");
    for (const bool fecf : {false, true}) {
        Session session = *Session::live(42, fecf);
        expect(session.answer("channel 1 10 4 0").text.empty() && !*session.saw_check_sums(), "no frame yet");
        expect(session.answer(frame).text == "frame 1 E1 accepted 1 queued 0 dropped 0 rest 0\n", "a frame with a field");
        expect(*session.saw_check_sums() != fecf, "only a right field was seen");
        expect((session.answer(wrong).text == "refused check\n") == fecf, "a frame with a wrong field");
        expect(session.end() && !*session.saw_check_sums(), "a wrong field was seen");
    }
}

void check_errors() {
    expect(Session::live(1024).status() == Session::bad_scid && Session::script(1024).status() == Session::bad_scid, "no spacecraft");
    Session script = *Session::script(42);
    expect(script.answer("# a comment").text.empty(), "a comment");
    const Answer bad = script.answer("fram 00");
    expect(bad.status == Session::bad_line && bad.text == "line 2: unknown command\n", "a bad line of a script");
    expect(script.answer("# a comment").status == Session::over, "a line after that");
    Session live = *Session::live(42);
    const Answer unknown = live.answer("fram 00");
    expect(unknown && unknown.text.substr(0, 19) == "bad unknown command", "a bad line of a receiver");
    expect(live.answer({}) && live.answer("channel 1 10 4 0") && live.text().text.empty(), "lines after that");
}

// Checks the first text of a session, for which its buffer must grow.
void check_room() {
    Session live = *Session::live(42);
    expect(live.answer("channel 1 10 4 0").status == Status::done, "a line without a text");
    texts_are_refused = true;
    const Answer refused = live.answer("clcw 1"), again = live.text();
    texts_are_refused = false;
    expect(refused.status == Status::no_room && refused.needed == 16 && refused.text.empty(), "a text without room");
    expect(again.status == Status::no_room && again.needed == 16, "a text still without room");
    expect(live.answer("frame 00").status == Session::waiting && live.end().status == Session::waiting, "a line while a text waits");
    expect(live.text().text == "clcw 1 01040000\n" && live.text().text.empty(), "the text that waited");
    expect(live.end().text == "final 1 01040000 events 0 buffered 0\n", "the report after that");
}

bool is_none(Session &session) {
    constexpr Status none = Session::no_session;
    return !session.is_held() && session.answer("clcw 1").status == none && session.text().status == none && session.end().status == none
        && session.saw_check_sums().status() == none && session.free() == none;
}

void check_moves() {
    Session never;
    expect(is_none(never), "a session that was never made");
    Session first = *Session::live(42);
    (void)first.answer("channel 1 10 4 0");
    expect(first.answer("clcw 1").text == "clcw 1 01040000\n", "a session before a move");
    Session second(std::move(first));
    expect(is_none(first), "a session that was moved from");  // NOLINT: it holds none
    Session third = *Session::live(43);
    third = std::move(second);
    expect(is_none(second) && third.answer("clcw 1").text == "clcw 1 01040000\n", "a move over a session that is held");
    Session &same = third;
    third = std::move(same);
    expect(third.answer("clcw 1").text == "clcw 1 01040000\n", "a move onto itself");
    expect(third.free() == Status::done && is_none(third) && tcrx_blocks() == 0, "a session that was freed");
    third = *Session::make();
    expect(third.is_held() && tcrx_blocks() > 0, "a new one in its place");
}

// Makes a call again and again, each time with one more request that succeeds, until memory doesn't run out. Returns
// its result.
template <typename Call> auto until_done(Call call, int &refusals) {
    for (long growth = 0;; growth++) {
        tcrx_refuse(growth);
        auto made = call();
        const bool was_refused = tcrx_refuse(-1) < 0;
        if (made.status != Status::no_memory) {
            return made;
        }
        expect(was_refused, "a call failed though no request was refused");
        refusals += 1;
    }
}

// A session with the status of its creation.
struct Begun {
    Status status;
    Session session;
};

void check_refused() {
    const std::string wanted = stored("tclive/stdout");
    int refusals = 0;
    Session session = std::move(until_done([] {
        tcrx::Result<Session> made = Session::live(42);
        expect(made || tcrx_blocks() == 0, "a session that isn't made");
        return Begun{made.status(), std::move(*made)};
    }, refusals).session);
    std::string texts;
    for (const std::string &line : lines_of(stored("tclive/stdin"))) {
        texts += until_done([&] {
            Answer answer = session.answer(line);
            // This is a receiver's answer if there is no memory for the channel, queue or MAP that the line sets up.
            // The line then sets up nothing.
            answer.status = answer.text == "bad no memory\n" ? Status::no_memory : answer.status;
            return answer;
        }, refusals).text;
    }
    texts += session.end().text;
    expect(texts == wanted, "the answers of a session whose requests are refused");
    expect(refusals > 20, std::to_string(refusals) + " requests were refused");
    Session script = *Session::script(42);
    const Answer bad = until_done([&] { return script.answer("channel 1 10 4 0"); }, refusals);
    expect(bad.status == Session::bad_line && bad.text == "line 1: no memory\n", "a script without memory");
    Session live = *Session::live(42);
    (void)live.answer("channel 1 10 4 0");
    const Answer none = until_done([&] { return live.end(); }, refusals);
    expect(none.status == Session::bad_line && none.text == "no memory\n", "no report without memory");
    expect(live.end().status == Session::over, "a second end");
    std::printf("sessions: %d requests refused\n", refusals);
}

}  // namespace

// Allocates the buffer for texts. Returns null while texts are refused.
void *operator new[](std::size_t count, const std::nothrow_t &) noexcept {
    return texts_are_refused ? nullptr : ::operator new[](count);
}

int main(int count, char **arguments) {
    if (count != 2) {
        return 2;
    }
    crates = arguments[1];
    check_cases();
    check_sums();
    check_errors();
    check_room();
    check_moves();
    check_refused();
    expect(tcrx_blocks() == 0, "no block is left");
    std::printf("sessions: %d passed, %d failed\n", passed, failed);
    return failed == 0 && passed > 0 ? 0 : 1;
}
