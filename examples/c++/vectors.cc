/* The calls with std::vector, C++11. An empty vector's data() may be null, and every call takes that. */
#include <kobbeskuim.h>

#include <iostream>
#include <string>
#include <vector>

namespace {

using Bytes = std::vector<uint8_t>;
using Numbers = std::vector<uint32_t>;

void tell(const char *call, unsigned number) {
    std::cout << call << ": " << number << " " << kob_text(number) << "\n";
}

/* Z0 = (100, 0) and Z1 = (0, -100): the sum 200 is clamped. */
void saturate() {
    const Numbers fields{KOB_SQCADD, KOB_SIZE_B, 0, 1, 0, 0, 1, 0};
    const Numbers words{kob_encode_word(kob_encode(fields.data(), fields.size()))};
    Bytes file(KOB_FILE_SIZE(128));
    file[0] = 100;
    file[kob_register_start(kob_register(128, file.size(), 1)) + 1] = 256 - 100;
    tell("run", kob_run_number(kob_run(128, file.data(), file.size(), false, words.data(), words.size())));
    std::cout << "lane 0 is " << unsigned{file[0]} << "\n";
}

/* Every call with no element in each of its parts. */
void leave_empty(uint8_t *no_bytes, uint32_t *no_numbers) {
    const uint32_t word = 0x4501D820; /* SQCADD Z0.B, Z0.B, Z1.B, 90 */
    const Bytes bytes(4);
    Numbers fields(KOB_FIELDS);
    kob_decode(word, fields.data(), fields.size());
    Bytes file(KOB_FILE_SIZE(128)), line(KOB_LINE_MAX), text(KOB_LIST_ROOM(0)), state(KOB_STREAM_SIZE);
    tell("run, no words", kob_run_number(kob_run(128, file.data(), file.size(), false, no_numbers, 0)));
    tell("run, no file", kob_run_number(kob_run(128, no_bytes, 0, false, &word, 1)));
    tell("run, neither", kob_run_number(kob_run(0, no_bytes, 0, false, no_numbers, 0)));
    tell("decode, no fields", kob_decode(word, no_numbers, 0));
    tell("encode, no fields", kob_encode_number(kob_encode(no_numbers, 0)));
    tell("write, no fields", kob_line_write_number(kob_line_write(no_numbers, 0, line.data(), line.size())));
    tell("write, no room", kob_line_write_number(kob_line_write(fields.data(), fields.size(), no_bytes, 0)));
    tell("read, no text", kob_line_read_number(kob_line_read(no_bytes, 0, fields.data(), fields.size())));
    tell("read, no fields", kob_line_read_number(kob_line_read(line.data(), line.size(), no_numbers, 0)));
    text.resize(kob_list(no_bytes, 0, text.data(), text.size()));
    std::cout << "list, no bytes: " << std::string(text.begin(), text.end());
    const bool refused = kob_list(bytes.data(), bytes.size(), no_bytes, 0) == KOB_NO_ROOM &&
                         kob_list(no_bytes, 0, no_bytes, 0) == KOB_NO_ROOM;
    std::cout << "list, no room: " << (refused ? "refused" : "taken") << "\n";
    tell("replay, no trace", kob_replay_number(kob_replay(no_bytes, 0, 0)));
    tell("feed, no state", kob_stream_number(kob_stream_feed(no_bytes, 0, bytes.data(), bytes.size())));
    tell("feed, no bytes", kob_stream_number(kob_stream_feed(state.data(), state.size(), no_bytes, 0)));
    tell("end, no state", kob_stream_end(no_bytes, 0));
    tell("end, after no bytes", kob_stream_end(state.data(), state.size()));
}

} // namespace

int main() {
    saturate();
    Bytes no_bytes;
    Numbers no_numbers;
    leave_empty(no_bytes.data(), no_numbers.data());
    leave_empty(nullptr, nullptr);
}
