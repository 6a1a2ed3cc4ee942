/*
 * libfabric: words of the fabric that touch nothing outside, for tests and tools.
 *
 * Each function reads the bytes that it is given, and replies what the program `fabric` says of them. It opens no file,
 * prints nothing, and keeps nothing from one call to the next. Its contract is in crates/fabric_c/src/lib.rt, and is
 * proved. No proof covers this header; bench/library compares its functions with those of the source.
 *
 * Rules for the caller, which nothing checks:
 *
 * - One call at a time in a thread. Calls in several threads do not disturb each other.
 * - No call from a signal handler, nor from a forked child of a process with threads.
 * - The buffers of a call do not overlap, and `length` is in none of them.
 * - No pointer is NULL, not even one to 0 bytes. No length is more than its buffer has, nor than PTRDIFF_MAX.
 * - The bytes that a call reads do not change while it runs.
 *
 * A text is bytes without a NUL at the end. The functions with a room reply so:
 *
 * - `*length` is the length of the reply in bytes.
 * - If the room is long enough, the reply is at its front, and what lies behind it is as it was.
 * - Else the room is as it was, and the call returns FABRIC_NO_ROOM. Call again with a room of `*length` bytes.
 * - A call that returns FABRIC_NOT_READ or FABRIC_OUT_OF_MEMORY has the reply of 0 bytes.
 */
#ifndef FABRIC_H
#define FABRIC_H

#include <stddef.h>
#include <stdint.h>

#ifdef __cplusplus
extern "C" {
#endif

/* All is done. */
#define FABRIC_OK 0
/* There was not enough memory. */
#define FABRIC_OUT_OF_MEMORY 1
/* fabric_audit alone: a line of the transcript is refused, and the reply is the line that names it. */
#define FABRIC_BAD_LINE 6
#define FABRIC_TOO_LARGE 9
/* The reply is longer than the room. */
#define FABRIC_NO_ROOM 32
/* The bytes are none of those that the function reads. */
#define FABRIC_NOT_READ 33

/*
 * The verdict on a transcript: the line that `fabric audit` writes, with its line feed. Returns the program's status:
 * FABRIC_OK with `safe ..` or `breach ..`, FABRIC_BAD_LINE or FABRIC_TOO_LARGE with `fault ..`.
 */
uint8_t fabric_audit(const uint8_t *transcript, size_t transcript_length, uint8_t *room, size_t room_length,
                     size_t *length);

/* The point of a name of the name service: 16 digits. A name is 1 to 64 visible signs without a comma. */
uint8_t fabric_point(const uint8_t *name, size_t name_length, uint8_t *room, size_t room_length, size_t *length);

/* Whether the bytes are an event of a schedule: a line that is not the first, without its line feed. */
uint8_t fabric_event(const uint8_t *line, size_t line_length);

/* Whether the bytes are a line of a report without its line feed. The lines `sent`, `unheld`, `flight`, `end` and
 * `fault` are not. */
uint8_t fabric_report(const uint8_t *line, size_t line_length);

/*
 * The line of a frame, without a line feed: its bytes in digits, the name of its message, who sends it and to whom, as
 * `5301050001.. RenewAck 1.1 2.1`.
 */
uint8_t fabric_frame_line(const uint8_t *frame, size_t frame_length, uint8_t *room, size_t room_length,
                          size_t *length);

/* The frame with this line. A frame has one line: a digit in upper case or another name is not read. */
uint8_t fabric_frame_bytes(const uint8_t *line, size_t line_length, uint8_t *room, size_t room_length, size_t *length);

/* The line of a record, without a line feed: its bytes in digits, and its name, as `0100000001 Boot`. */
uint8_t fabric_record_line(const uint8_t *record, size_t record_length, uint8_t *room, size_t room_length,
                           size_t *length);

/* The record with this line. */
uint8_t fabric_record_bytes(const uint8_t *line, size_t line_length, uint8_t *room, size_t room_length,
                            size_t *length);

#ifdef __cplusplus
}
#endif

#endif
