/* The run of the program drawtrack on a descriptor.
 *
 * This file is outside the proof: it reads and writes, since an export of the proved run is handed
 * no reader and no writer. What there is to write, the status and the reason are the proved run's
 * (crates/drawtrack_run_c). A call that a signal interrupted is made again; any other failure ends
 * the reading or writing, and standard error says so. */
#include <errno.h>
#include <stddef.h>
#include <stdint.h>
#include <string.h>
#include <unistd.h>

/* The most bytes of an input that matter. */
#define INPUT_BYTES 8241

/* Room for what the calls of a session hand out: a piece of at most 8192 bytes each. Every line of
 * an input after which the session goes on takes six bytes or more. */
#define PIECES (INPUT_BYTES / 6 + 2)
#define OUT_BYTES (PIECES * 8192)

/* More bytes than any reason takes. */
#define WORD_BYTES 512

#define STATUS_FAILED 2

struct handed {
    size_t length;
    size_t count;
    size_t said;
};

uint32_t drawtrack_run_in_memory(const uint8_t *input, size_t input_length, uint8_t *held,
    size_t held_length, uint8_t *bytes, size_t bytes_length, size_t *ends, size_t ends_length,
    uint8_t *words, size_t words_length, struct handed *handed);

uint32_t drawtrack_run(int32_t input);

/* Reads to the end, or until there is no more room. Answers whether that came to be. */
static int read_all(int from, uint8_t *bytes, size_t room, size_t *length)
{
    *length = 0;
    for (;;) {
        ssize_t got = read(from, bytes + *length, room - *length);
        if (got < 0) {
            if (errno == EINTR)
                continue;
            return 0;
        }
        *length += (size_t)got;
        if (got == 0 || *length == room)
            return 1;
    }
}

/* Answers whether all of the bytes were taken. For none no call is made. */
static int write_all(int to, const void *bytes, size_t length)
{
    const uint8_t *rest = bytes;

    while (length > 0) {
        ssize_t put = write(to, rest, length);
        if (put < 0 && errno == EINTR)
            continue;
        if (put <= 0)
            return 0;
        rest += put;
        length -= (size_t)put;
    }
    return 1;
}

/* Says what failed, and why. */
static uint32_t failed(const char *what)
{
    const char *why = strerror(errno);

    write_all(STDERR_FILENO, what, strlen(what));
    write_all(STDERR_FILENO, ": ", 2);
    write_all(STDERR_FILENO, why, strlen(why));
    write_all(STDERR_FILENO, "\n", 1);
    return STATUS_FAILED;
}

/* Writes the pieces, each by itself, as the session hands them out. Where one ends only divides the
 * bytes: these are written in their order, each once, whatever the ends are. */
static int hand_out(const uint8_t *bytes, size_t length, const size_t *ends, size_t count)
{
    size_t from = 0;
    size_t i = 0;

    while (from < length) {
        size_t end = i < count ? ends[i++] : length;
        if (end <= from || end > length)
            end = length;
        if (!write_all(STDOUT_FILENO, bytes + from, end - from))
            return 0;
        from = end;
    }
    return 1;
}

/* Reads the descriptor to its end, or as many bytes as matter, and writes to standard output and
 * error. Answers 0 after results, 1 after a refusal, 2 where reading or writing failed. Its memory
 * is one for the process: one call at a time. */
uint32_t drawtrack_run(int32_t input)
{
    static uint8_t held[OUT_BYTES];
    static uint8_t bytes[OUT_BYTES];
    static size_t ends[PIECES];
    uint8_t read_bytes[INPUT_BYTES];
    uint8_t words[WORD_BYTES];
    struct handed handed = { 0, 0, 0 };
    size_t length;
    uint32_t status;

    if (!read_all(input, read_bytes, sizeof read_bytes, &length))
        return failed("drawtrack: input failed");
    status = drawtrack_run_in_memory(read_bytes, length, held, sizeof held, bytes, sizeof bytes,
        ends, PIECES, words, sizeof words, &handed);
    if (handed.length > sizeof bytes || handed.count > PIECES || handed.said > sizeof words)
        return STATUS_FAILED;
    if (!hand_out(bytes, handed.length, ends, handed.count))
        return failed("drawtrack: output failed");
    write_all(STDERR_FILENO, words, handed.said);
    return status;
}
