/* The functions that are counted: the core's (rattle_), by shim.rt.txt, and the same work in plain C (plain_). */
#include <stdbool.h>
#include <stddef.h>
#include <stdint.h>

/* bytes: LEN; of refusal 9, how many lack */
struct frame { uint8_t refused, function; uint16_t id; uint32_t address; size_t bytes; };
struct rtu { uint8_t refused, address, function; };
struct ascii { uint8_t refused, address, function; size_t length; };
struct step { uint8_t refused; bool complete, under_way; uint16_t session; size_t limit, reached, count; };
/* option, content: the first byte of the options and of the data, 0 where there is none; likewise a text's letter */
struct datagram { uint8_t refused, kind, option, content; size_t options, data; };
struct request { uint8_t refused, letter; uint64_t offset, size; size_t name; };
struct reply { uint8_t refused, letter; uint32_t status; size_t message; };
struct sent { uint8_t refused; size_t length, next; };
/* n: how many groups a request has; how many bytes were written */
struct counted { uint8_t refused; size_t n; };
/* a group that is asked for, which the core has as [u16; 3] */
struct ask { uint16_t file, record, length; };
struct asked { bool there; uint16_t file, record, length; };
/* count, length: both length bytes where there are no data */
struct groups { uint8_t refused; bool no_data; uint8_t count, length; size_t n; };
/* first: the first byte, 0 where there is none */
struct registers { uint8_t first; size_t length; };
struct descriptor { uint8_t refused, contents; uint16_t length, kind, records, record_length, next; uint32_t total; };
struct date { uint8_t year, month, day, hour, minute, second; };
struct difference { uint8_t refused; int64_t seconds; };
struct fields { uint8_t refused, channel, year, month, day, hour, minute, second, kind; uint32_t address; uint64_t bits; };
struct archive_fields { struct fields card; uint8_t archive; };
/* of a course of calls on a table of turns: what the answers came to, and how many were no refusals */
struct told { uint64_t sum, good; };
/* of a summary of an archive: place that of 72 and 73; step the one at the index that was asked for, 0 past the end */
struct summed_f32 { uint8_t refused; size_t place; float first; size_t first_place; float last; size_t last_place, present; float step; };
struct summed_f64 { uint8_t refused; size_t place; double first; size_t first_place; double last; size_t last_place, present; double step; };
struct summed_u32 { uint8_t refused; size_t place; uint32_t first; size_t first_place; uint32_t last; size_t last_place, present; uint32_t step; };
struct summed_u64 { uint8_t refused; size_t place; uint64_t first; size_t first_place; uint64_t last; size_t last_place, present; uint64_t step; };

uint16_t rattle_checksum(const uint8_t *bytes, size_t n);
uint16_t plain_checksum(const uint8_t *bytes, size_t n);
uint16_t rattle_checksum_from(uint16_t start, const uint8_t *bytes, size_t n);
uint16_t plain_checksum_from(uint16_t start, const uint8_t *bytes, size_t n);
uint32_t rattle_crc32_from(uint32_t crc, const uint8_t *bytes, size_t n);
uint32_t plain_crc32_from(uint32_t crc, const uint8_t *bytes, size_t n);
struct frame rattle_read_at_meter(uint32_t own, const uint8_t *bytes, size_t n);
struct frame plain_read_at_meter(uint32_t own, const uint8_t *bytes, size_t n);
struct frame rattle_read_at_master(uint32_t asked, uint8_t function, uint16_t id, const uint8_t *bytes, size_t n);
struct frame plain_read_at_master(uint32_t asked, uint8_t function, uint16_t id, const uint8_t *bytes, size_t n);
struct rtu rattle_read_rtu(const uint8_t *bytes, size_t n);
struct rtu plain_read_rtu(const uint8_t *bytes, size_t n);
struct ascii rattle_read_ascii(const uint8_t *chars, size_t n, uint8_t *out, size_t room);
struct ascii plain_read_ascii(const uint8_t *chars, size_t n, uint8_t *out, size_t room);
uint8_t rattle_write_ascii(uint8_t address, uint8_t function, const uint8_t *data, size_t n, uint8_t *out, size_t room);
uint8_t plain_write_ascii(uint8_t address, uint8_t function, const uint8_t *data, size_t n, uint8_t *out, size_t room);
struct step rattle_receive(uint16_t session, size_t limit, bool under_way, size_t count, const uint8_t *frame, size_t n, uint8_t *buffer, size_t room);
struct step plain_receive(uint16_t session, size_t limit, bool under_way, size_t count, const uint8_t *frame, size_t n, uint8_t *buffer, size_t room);
uint8_t rattle_datagram_fault(const uint8_t *held, size_t h, const uint8_t *part, size_t n);
uint8_t plain_datagram_fault(const uint8_t *held, size_t h, const uint8_t *part, size_t n);
struct datagram rattle_read_datagram(const uint8_t *bytes, size_t n);
struct datagram plain_read_datagram(const uint8_t *bytes, size_t n);
uint8_t rattle_write_datagram(uint8_t kind, const uint8_t *options, size_t o, const uint8_t *content, size_t n, uint8_t *out, size_t room);
uint8_t plain_write_datagram(uint8_t kind, const uint8_t *options, size_t o, const uint8_t *content, size_t n, uint8_t *out, size_t room);
struct request rattle_read_request(const uint8_t *bytes, size_t n);
struct request plain_read_request(const uint8_t *bytes, size_t n);
uint8_t rattle_write_request(uint64_t offset, uint64_t size, const uint8_t *name, size_t n, uint8_t *out, size_t room);
uint8_t plain_write_request(uint64_t offset, uint64_t size, const uint8_t *name, size_t n, uint8_t *out, size_t room);
struct reply rattle_read_reply(const uint8_t *bytes, size_t n);
struct reply plain_read_reply(const uint8_t *bytes, size_t n);
uint8_t rattle_write_reply(uint32_t status, const uint8_t *message, size_t m, const uint8_t *content, size_t n, uint8_t *out, size_t room);
uint8_t plain_write_reply(uint32_t status, const uint8_t *message, size_t m, const uint8_t *content, size_t n, uint8_t *out, size_t room);
struct sent rattle_send(const uint8_t *file, size_t n, uint16_t session, size_t largest, size_t place, uint8_t *out, size_t room);
struct sent plain_send(const uint8_t *file, size_t n, uint16_t session, size_t largest, size_t place, uint8_t *out, size_t room);
struct counted rattle_adi_read_request(const uint8_t *pdu, size_t n);
struct counted plain_adi_read_request(const uint8_t *pdu, size_t n);
struct asked rattle_adi_asked_at(const uint8_t *pdu, size_t n, size_t place);
struct asked plain_adi_asked_at(const uint8_t *pdu, size_t n, size_t place);
struct counted rattle_adi_write_request(const struct ask *groups, size_t n, uint8_t *out, size_t room);
struct counted plain_adi_write_request(const struct ask *groups, size_t n, uint8_t *out, size_t room);
struct groups rattle_adi_read_reply(const uint8_t *pdu, size_t n);
struct groups plain_adi_read_reply(const uint8_t *pdu, size_t n);
struct registers rattle_adi_registers_at(const uint8_t *pdu, size_t n, size_t place);
struct registers plain_adi_registers_at(const uint8_t *pdu, size_t n, size_t place);
struct counted rattle_adi_write_reply(const uint8_t *lengths, size_t groups, const uint8_t *registers, size_t n, uint8_t *out, size_t room);
struct counted plain_adi_write_reply(const uint8_t *lengths, size_t groups, const uint8_t *registers, size_t n, uint8_t *out, size_t room);
struct counted rattle_adi_write_no_data(uint8_t count, uint8_t length, uint8_t *out, size_t room);
struct counted plain_adi_write_no_data(uint8_t count, uint8_t length, uint8_t *out, size_t room);
struct descriptor rattle_adi_read_descriptor(const uint8_t *registers, size_t n);
struct descriptor plain_adi_read_descriptor(const uint8_t *registers, size_t n);
struct fields rattle_read_card(const uint8_t *bytes, size_t n);
struct fields plain_read_card(const uint8_t *bytes, size_t n);
uint8_t rattle_write_card(struct fields card, uint8_t *out, size_t room);
uint8_t plain_write_card(struct fields card, uint8_t *out, size_t room);
struct archive_fields rattle_read_archive_card(const uint8_t *bytes, size_t n);
struct archive_fields plain_read_archive_card(const uint8_t *bytes, size_t n);
uint8_t rattle_write_archive_card(struct fields card, uint8_t archive, uint8_t *out, size_t room);
uint8_t plain_write_archive_card(struct fields card, uint8_t archive, uint8_t *out, size_t room);
uint8_t rattle_to_archive_card(const uint8_t *bytes, size_t n, uint8_t *out, size_t room);
uint8_t plain_to_archive_card(const uint8_t *bytes, size_t n, uint8_t *out, size_t room);
uint8_t rattle_to_card(const uint8_t *bytes, size_t n, uint8_t *out, size_t room);
uint8_t plain_to_card(const uint8_t *bytes, size_t n, uint8_t *out, size_t room);
struct difference rattle_clock_difference(struct date meter, struct date cabinet);
struct difference plain_clock_difference(struct date meter, struct date cabinet);
struct told rattle_course(const uint8_t *calls, size_t n);
struct told plain_course(const uint8_t *calls, size_t n);
struct summed_f32 rattle_summary_f32(const uint8_t *body, size_t n, size_t k);
struct summed_f32 plain_summary_f32(const uint8_t *body, size_t n, size_t k);
struct summed_f64 rattle_summary_f64(const uint8_t *body, size_t n, size_t k);
struct summed_f64 plain_summary_f64(const uint8_t *body, size_t n, size_t k);
struct summed_u32 rattle_summary_u32(const uint8_t *body, size_t n, size_t k);
struct summed_u32 plain_summary_u32(const uint8_t *body, size_t n, size_t k);
struct summed_u64 rattle_summary_u64(const uint8_t *body, size_t n, size_t k);
struct summed_u64 plain_summary_u64(const uint8_t *body, size_t n, size_t k);
