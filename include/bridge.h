/* The bridge, for C and for whatever links C. Every function here is proved to give what its comment says, for any
 * arguments: nothing is asked of the caller but that each pointer is good for its length and that no pointer which a call writes
 * through overlaps another of its pointers. Numbers of refusals are those of document 01, the lowest that applies; 0 says
 * that a call was taken. A refused call changes no byte behind any pointer, but for the counts, which are 0, and where a comment
 * says otherwise.
 *
 * A STATE is BRIDGE_STATE_SIZE bytes:
 *
 *   at  bytes  what
 *    0    1    COMMON_FLAGS
 *    1    1    ERROR
 *    2    6    DDRB, PORTB, DDRC, PORTC, DDRD, PORTD
 *    8    1    CONFIG_SPI
 *    9    1    1 if SPI is configured, else 0
 *   10    1    PAKET_SIZE register, N less one
 *   11    8    packet register, REG0 first
 *   19    9    timings: reset, write bit, read bit
 *   28   10    EPROM image
 *   38    1    IOG count
 *   39    1    version
 *   40    4    serial number, low byte first
 *   44    1    what is waited for: 0 nothing; one operand for 1 DDRB, 2 PORTB, 3 DDRC, 4 PORTC, 5 DDRD, 6 PORTD, 7 IOG count,
 *              8 I2C byte, 9 CONFIG_SPI, 10 size, 11 1-Wire byte, 12 1-Wire bit, 13 1-Wire byte with strong pull-up; 14 the
 *              byte after 1D; 15 packet bytes, 16 packet bytes and then an exchange, 17 timing bytes
 *   45    1    how many more bytes are waited for, with 15 to 17; else 0
 *   46    9    the packet or timing bytes held so far
 *   55    1    1 if the next byte is dropped, after a line fault between commands, else 0
 *
 * Another length, a byte at 9 or 55 that is not 0 or 1, a byte at 44 over 17, or one at 45 that is not 0 with a wait of 0 to 14, is
 * no state: refusal 1. A state that waits and has a 1 at 55 breaks its ranges. */
#ifndef BRIDGE_H
#define BRIDGE_H

#include <stddef.h>
#include <stdint.h>

#ifdef __cplusplus
extern "C" {
#endif

#define BRIDGE_STATE_SIZE 56

/* Kinds of events, as those of a session's records. */
#define BRIDGE_BYTE 1
#define BRIDGE_FAULT 2

/* What the judge finds. */
#define BRIDGE_WHOLE 0
#define BRIDGE_OPEN 1
#define BRIDGE_WRONG 2

/* The state that every session starts with goes to `state`. 1 if this has another length. */
uint8_t bridge_factory_start(uint8_t *state, size_t state_size);

/* One event: a received byte (kind BRIDGE_BYTE, the byte), or a line fault (BRIDGE_FAULT, 81 frame, 82 overrun, 83 parity, hex).
 * Samples are used from the mark `sampled` on; actions (four bytes each) and reply bytes are written from the marks `acted` and
 * `replied` on, in bytes. Taken, the new state is in `state`, and the counts say how many samples were used, reply bytes and
 * actions written. A fault returns its code and leaves any wait; where nothing is waited for, the next byte is dropped: it does
 * nothing but end the drop, and several faults in a row drop one byte. Refused with 1 to 4 as in document 01, 8 for another kind, 9 for
 * another fault. */
uint8_t bridge_step(uint8_t *state, size_t state_size, uint8_t kind, uint8_t value,
                    const uint8_t *samples, size_t samples_size, size_t sampled,
                    uint8_t *actions, size_t actions_size, size_t acted,
                    uint8_t *replies, size_t replies_size, size_t replied,
                    size_t *samples_used, size_t *reply_count, size_t *action_count);

/* Judges command bytes from a start: the verdict, and with BRIDGE_WRONG the place and the code that bridge_step would return there (80
 * unknown command, 84 wrong interface, 40 no SPI configuration, hex), else 0 in both. Refused with 1, or 12 if the start waits or drops
 * the next byte; verdict, place and code then stay as they were. */
uint8_t bridge_judge(const uint8_t *state, size_t state_size, const uint8_t *bytes, size_t bytes_size,
                     uint8_t *verdict, size_t *place, uint8_t *code);

/* Switches on from two images of settings: the state goes to `state`, the actions to the buffer from the mark on. Refused with 11
 * if the factory image is not good, 3 if the actions do not fit; the state is then all zero. 1 if `state` has another length. */
uint8_t bridge_switch_on(const uint8_t *stored, size_t stored_size, const uint8_t *factory, size_t factory_size,
                         uint8_t iog_count, uint8_t version, uint32_t serial,
                         uint8_t *state, size_t state_size,
                         uint8_t *actions, size_t actions_size, size_t acted, size_t *action_count);

/* Replays a session as far as surely fits into the output, and says how many bytes were written. The cursor is the state and five
 * numbers, at first the factory start and zeros; it is changed to where to go on, and the replay is over when `done` is not 0.
 * With BRIDGE_REPLAY_ROOM bytes of output a call always gets further. 1 if `state` is no state; a state that breaks its ranges,
 * which no session comes to, ends the replay at the next event with a record of refusal 1. */
#define BRIDGE_REPLAY_ROOM 1046
uint8_t bridge_replay(uint8_t *state, size_t state_size, size_t *at, size_t *end, size_t *sample, size_t *sampled, uint8_t *done,
                      const uint8_t *session, size_t session_size, uint8_t *output, size_t output_size, size_t *written);

#ifdef __cplusplus
}
#endif

#endif
