/*
 * The C interface of the girder sheet: the transcript of a record.
 *
 * A record is a file of commands in bytes (docs/RECORD.md). Its transcript has a line of text for
 * each answer and each refusal, and each line ends with a line feed.
 */
#ifndef MOSVITAR_H
#define MOSVITAR_H

#include <stddef.h>
#include <stdint.h>

#ifdef __cplusplus
extern "C" {
#endif

/*
 * Returns the length n of the record's transcript, whether it fits the buffer or not.
 *
 * Where n <= out_len, the first n bytes of the buffer are the transcript, and the rest of it is
 * untouched. Where n > out_len, all of the buffer is untouched. No zero byte is put at the end.
 *
 * Any bytes are a record: what is asked wrongly has a line that says so, and a record over 65,536
 * bytes has the one line "fault at 0 record 20". The same bytes always have the same transcript, so
 * a call with out_len 0 tells the length that a second call needs. A buffer of
 * 32 * (record_len + 1) bytes is always long enough.
 *
 * All this, and that the call returns and touches no memory but its own and the two ranges, is
 * proved of the function's source, crates/office, for every record and every buffer. It has no heap
 * and keeps nothing from one call to the next, so threads may call it at the same time, each with a
 * buffer of its own. It takes a few KiB of stack; no proof says that the stack suffices. In a
 * buffer that is long enough, but not surely so by the bound above, the commands are run twice.
 *
 * The caller owes, and nothing checks:
 *
 * - record points to record_len bytes that may be read, and that nobody writes during the call;
 * - out points to out_len bytes that may be read and written, and that nobody else reads or writes
 *   during the call; what they hold at the call does not matter;
 * - the two ranges have no byte in common;
 * - where a length is 0 its pointer is not used and may be anything, null too; else it is not null.
 */
size_t mosvitar_transcript(const uint8_t *record, size_t record_len, uint8_t *out, size_t out_len);

#ifdef __cplusplus
}
#endif

#endif
