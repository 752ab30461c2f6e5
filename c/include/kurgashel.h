/* Kurgashel: a Multicast DNS / DNS-SD responder, cache, browser and TXT reader (RFC 6762, RFC 6763).
 *
 * Every function is total: it takes any arguments and refuses bad ones by a number, and a refused call leaves every lent byte as it was. The caller
 * answers for the pointers alone: each points to as many bytes (or entries) as the count beside it says, a null pointer goes with a count of 0, a
 * buffer that is written overlaps no other argument, and no other thread uses it during the call. Nothing is allocated and nothing is kept between calls.
 *
 * Time is in milliseconds, on any clock of the caller's that never goes back, at most 2^62.
 *
 * Link libkurgashel.a: tools/library writes it to target/staticlib, and after make install pkg-config --cflags --libs kurgashel tells the flags. A program
 * that calls only the reader, the cache or the TXT lookup gets only that part.
 */
#ifndef KURGASHEL_H
#define KURGASHEL_H

#include <stdbool.h>
#include <stddef.h>
#include <stdint.h>

#ifdef __cplusplus
extern "C" {
#endif

/* Refusals; each call tests those that apply to it in the order 1, 2, 3, 8, 4, 5, 6, 7, 10, 11, 12, 13, and the TXT lookup 9, 6. */
enum {
    KURGASHEL_ACCEPTED = 0,
    KURGASHEL_TIME = 1,      /* time above 2^62, before the state's last time or an entry's receive time, or a kept time too late */
    KURGASHEL_DRAW = 2,      /* draw outside 0..250 (start), 20..120 or 400..500 (packet received), or 20..120 or 0..20 (start of a browser) */
    KURGASHEL_BUFFER = 3,    /* an out buffer under 1,452 bytes, or too small for an event of a trace */
    KURGASHEL_LENGTH = 4,    /* message under 12 or over 8,972 bytes */
    KURGASHEL_HEADER = 5,    /* opcode or RCODE not zero, or a response from a source port other than 5353 */
    KURGASHEL_MALFORMED = 6, /* malformed message, TXT or looked-up name */
    KURGASHEL_SETUP = 7,     /* names or data of a set-up, a state or an update break the rules, or a buffer of one has another size */
    KURGASHEL_CACHE = 8,     /* not 1 to 512 entries, not 1,024 bytes of store for each, or an entry with a length too great */
    KURGASHEL_KEY = 9,       /* TXT key empty, or with a byte that no key has */
    KURGASHEL_NAME_LOST = 10, /* update of an instance whose name is lost */
    KURGASHEL_TOO_SOON = 11, /* update less than 6,000 ms after the last one */
    KURGASHEL_TRACE = 12,    /* a trace that breaks the rules, or an event with a value that its field cannot hold */
    KURGASHEL_TOO_LONG = 13  /* a mapped name of more than 255 bytes */
};

#define KURGASHEL_PORT 5353          /* the port that packets come from and go to */
#define KURGASHEL_STATE_BYTES 850    /* a responder's state */
#define KURGASHEL_SETUP_BYTES 579    /* sizeof (struct kurgashel_setup) */
#define KURGASHEL_OUT_BYTES 1452     /* the least out buffer; no packet is longer */
#define KURGASHEL_MOST_ENTRIES 512   /* the most entries of a cache; the least is 1 */
#define KURGASHEL_SLOT_BYTES 1024    /* the store of a cache has so many bytes for each entry, no more and no less */

/* ---- the responder */

/* What a responder is set up with: labels as bytes with their lengths, without length bytes or dots, and the data of its records. Bytes past a length,
 * and aaaa where bit 0 of has_aaaa is 0, say nothing. Only bytes, so its layout is the same everywhere and nothing pads it. */
struct kurgashel_setup {
    uint8_t instance[63], instance_length; /* 1..63 bytes of UTF-8 (RFC 3629) without 00..1F and 7F, such as "Booth 4" */
    uint8_t service[16], service_length;   /* "_" and a service name of RFC 6335, such as "_voice" */
    uint8_t protocol[4];                   /* "_tcp" or "_udp" */
    uint8_t host[63], host_length;         /* 1..63 bytes, any */
    uint8_t domain[5];                     /* "local" */
    uint8_t port[2];                       /* most significant byte first */
    uint8_t txt[400], txt_length[2];       /* 1..400 bytes of strings, each behind its length byte; one zero byte for none */
    uint8_t a[4];
    uint8_t has_aaaa;
    uint8_t aaaa[16];
};

/* A call's answer: a refusal or 0; after a tick, whether more is due at the same time; and the lengths of the packets to send, 0 for none. The one of `length`
 * bytes goes by multicast to all; the one of `unicast_length` bytes goes to the address and port alone that the packet received came from. Only a packet
 * received has a second, and it may have both. */
struct kurgashel_answer {
    uint8_t refusal;
    bool more;
    size_t length, unicast_length;
};

/* Begins a responder in `state`: both its names wait for `draw` (a random 0..250) ms before their first probe. Refusals 1, 2, 7. */
struct kurgashel_answer kurgashel_start(uint8_t *state, size_t state_bytes, const uint8_t *setup, size_t setup_bytes, uint64_t now, uint64_t draw);

/* Takes a packet that came from an address and a port. `from` is the address, in network byte order: 16 bytes, or the 4 of IPv4, which are the same address
 * as ::ffff:a.b.c.d; of any other number of bytes it counts as `::`. `draw` (a random 20..120) delays a reply with the shared PTR record, `hold` (a random
 * 400..500) a query that is held; both are drawn anew for every packet, whatever it is, since both are tested. What is to be sent at once to all is written to
 * `out`, and what is to be sent at once to the sender alone to `unicast`; the bytes beyond a packet stay. To the sender go answers to questions that want
 * unicast, those that all have heard not long ago (RFC 6762, 5.4), and all answers to a query from a port other than 5353, from a plain resolver (6.7).
 * Refusals 1 to 7.
 *
 * A query from port 5353 with the TC bit has known answers that follow in further packets (RFC 6762, 7.2). It is held: nothing is sent now, and the step that
 * answers it is due in `hold` ms, to all, without the records that came as known answers from its address by then. The state holds up to four queries, one for
 * an address, and of each only what it asks for and what is known; a probe is never held, and a fifth is answered as if it had no TC. For the caller it is one
 * more step that kurgashel_due counts and a tick takes. */
struct kurgashel_answer kurgashel_receive(uint8_t *state, size_t state_bytes, uint64_t now, const uint8_t *from, size_t from_bytes, uint16_t port,
                                          uint64_t draw, uint64_t hold, const uint8_t *packet, size_t packet_bytes, uint8_t *out, size_t out_bytes,
                                          uint8_t *unicast, size_t unicast_bytes);

/* Takes the steps that are due, up to the first that sends: its packet is written to `out`. Call it when a step is due (kurgashel_due), at most 50 ms late,
 * and again at once where `more`; calls between do no harm. Refusals 1, 3, 7. */
struct kurgashel_answer kurgashel_tick(uint8_t *state, size_t state_bytes, uint64_t now, uint8_t *out, size_t out_bytes);

/* Ends a responder: the records that it holds are written to `out` with TTL 0, a goodbye to all (RFC 6762, 10.1), and both its claims are lost for good. A
 * responder that holds nothing says nothing. Refusals 1, 3, 7. */
struct kurgashel_answer kurgashel_stop(uint8_t *state, size_t state_bytes, uint64_t now, uint8_t *out, size_t out_bytes);

/* Changes the port of the SRV record, or the TXT record: 1..400 bytes of strings, each behind its length byte. Where the instance's name is held, the record
 * with its new data is written to `out` for all (RFC 6762, 8.4), and once more 1,000 ms later by a tick; where it is not yet held, the responder begins anew to
 * claim it with the new data. New data may equal the old. Refusals 1, 3, 7, 10, 11. */
struct kurgashel_answer kurgashel_update_port(uint8_t *state, size_t state_bytes, uint64_t now, uint16_t port, uint8_t *out, size_t out_bytes);
struct kurgashel_answer kurgashel_update_txt(uint8_t *state, size_t state_bytes, uint64_t now, const uint8_t *txt, size_t txt_bytes, uint8_t *out,
                                             size_t out_bytes);

/* How a claim stands: of the instance's name (0) or the host's name (any other number). A buffer that is no state says lost. */
enum { KURGASHEL_INSTANCE = 0, KURGASHEL_HOST = 1 };
enum { KURGASHEL_WAITING = 0, KURGASHEL_PROBING = 1, KURGASHEL_DEFERRED = 2, KURGASHEL_HELD = 3, KURGASHEL_LOST = 4 };
uint8_t kurgashel_claim(const uint8_t *state, size_t state_bytes, uint8_t claim);

/* When the next step is due, if one is to come: before `time` a tick sends nothing. A packet received may bring it forward. A buffer that is no state has
 * none to come. */
struct kurgashel_due {
    bool due;
    uint64_t time;
};
struct kurgashel_due kurgashel_due(const uint8_t *state, size_t state_bytes);

/* ---- the cache: a table of 1 to 512 entries and a store of 1,024 bytes for each, lent and worked on in place; zeros are an empty cache. A call reads no
 * more than the entries, bytes and message that it is given, and keeps nothing of them. */

/* An entry; slot i of the store, at 1,024 times i, has 256 bytes for the owner's name and then 768 for the rdata, names uncompressed. It is live while now
 * is before its expiry. */
struct kurgashel_entry {
    uint16_t rtype, owner; /* the type, and the length of the owner */
    uint32_t rdata;        /* the length of the rdata */
    uint64_t received, expiry;
    uint64_t ttl; /* as received, in seconds: what cuts the expiry short leaves it */
};

/* A refusal or 0; the records that were turned away since all entries are live, and those passed over since their rdata is too long. */
struct kurgashel_taken {
    uint8_t refusal;
    uint32_t turned_away, passed_over;
};

/* Takes the records of a response into a cache. Refusals 1, 8, 4, 5, 6. */
struct kurgashel_taken kurgashel_cache_take(struct kurgashel_entry *table, size_t entries, uint8_t *store, size_t store_bytes, uint64_t now, uint16_t port,
                                            const uint8_t *message, size_t message_bytes);

/* A refusal or 0; whether a live entry was found, and its slot; how many labels the name has, and the entry's owner as well, and the length of the first. */
struct kurgashel_looked {
    uint8_t refusal;
    bool found;
    size_t slot, name_labels, name_first_label;
};

/* The lowest live entry from slot `from` on with that name (uncompressed, as on the wire) and type. Refusals 1, 8, 6. */
struct kurgashel_looked kurgashel_cache_look_up(const struct kurgashel_entry *table, size_t entries, const uint8_t *store, size_t store_bytes, uint64_t now,
                                                const uint8_t *name, size_t name_bytes, uint16_t rtype, size_t from);

/* ---- the browser: who offers a service, as the cache has heard it. It asks for the service's PTR records, first after a draw and then at gaps that double
 * from one second to an hour, and once more when a record is about to lapse (RFC 6762, 5.2); its queries list what the cache knows (7.1), in further packets
 * where one is too small (7.2). The cache hears the answers: hand each packet received to kurgashel_cache_take. A call reads the table and the store, and
 * writes neither. */

/* A browser, handed over and given back by value. All its fields are the library's; a copy of it may be kept, and zeros are a browser that every call
 * refuses. */
struct kurgashel_browser {
    uint8_t service[16], protocol[4], domain[5];
    uint64_t service_length, draw, refresh, series, count, query, owed, last;
};

/* A refusal or 0, and the browser. */
struct kurgashel_browser_begun {
    uint8_t refusal;
    struct kurgashel_browser browser;
};

/* Begins a browser for a service, by its labels as bytes: "_voice", "_tcp" or "_udp", and "local". `draw` (a random 20..120) is how long in ms the first query
 * waits, `refresh` (a random 0..20) how many thousandths of a TTL its queries for records about to lapse are late. Refusals 1, 2, 7. */
struct kurgashel_browser_begun kurgashel_browse_start(const uint8_t *service, size_t service_bytes, const uint8_t *protocol, size_t protocol_bytes,
                                                      const uint8_t *domain, size_t domain_bytes, uint64_t now, uint64_t draw, uint64_t refresh);

/* A refusal or 0; whether more is due at the same time; the length of the packet to send to all, 0 for none; and the browser then, which takes the place of the
 * one handed over. After a refusal it is the one handed over. */
struct kurgashel_browser_asked {
    uint8_t refusal;
    bool more;
    size_t length;
    struct kurgashel_browser browser;
};

/* Sends what is due: what a query that was too small still owes, or a query. At most one packet, written to `out`. Call it when a step is due
 * (kurgashel_browse_due), and again at once where `more`; calls between do no harm. Refusals 1, 3, 8, 7. */
struct kurgashel_browser_asked kurgashel_browse_tick(const struct kurgashel_entry *table, size_t entries, const uint8_t *store, size_t store_bytes,
                                                     struct kurgashel_browser browser, uint64_t now, uint8_t *out, size_t out_bytes);

/* A refusal or 0; whether a slot is listed, and which. */
struct kurgashel_browser_listed {
    uint8_t refusal;
    bool found;
    size_t slot;
};

/* The list: the lowest slot from `from` on whose entry is a live PTR record of the service with a target that no lower such entry has, letters folded. The
 * target, the instance's name, is the rdata in the slot. From 0 on, and each time from the slot behind the last, it gives every instance once.
 * Refusals 1, 8, 7. */
struct kurgashel_browser_listed kurgashel_browse_list(const struct kurgashel_entry *table, size_t entries, const uint8_t *store, size_t store_bytes,
                                                      struct kurgashel_browser browser, uint64_t now, size_t from);

/* A refusal or 0, and when the next step is due, with the table as it is: before `time` a tick sends nothing. A message taken into the cache may bring it
 * forward. Refusals 1, 8, 7. */
struct kurgashel_browser_due {
    uint8_t refusal;
    uint64_t time;
};
struct kurgashel_browser_due kurgashel_browse_due(const struct kurgashel_entry *table, size_t entries, const uint8_t *store, size_t store_bytes,
                                                  struct kurgashel_browser browser, uint64_t now);

/* ---- the proxy: names and records between a link, where names end in "local", and unicast DNS (RFC 8766, 5.5). Two domains are lent at every call, as
 * uncompressed names: `rich` for rich text and `ldh` for letters, digits and hyphens. Nothing is kept. A name lies under a domain where some labels stand before
 * it, letters folded. */

/* Refusal 7, or 0: a domain is malformed, the two are equal, or one lies under the other. */
uint8_t kurgashel_proxy_refusal(const uint8_t *rich, size_t rich_bytes, const uint8_t *ldh, size_t ldh_bytes);

/* What becomes of a unicast question: a refusal, or 0; whether it is answered negatively at once, as SOA, NS and DS below a domain are; else the name to ask for
 * on the link, with zeros behind it: one under a domain ends in "local" there, any other stays as it is. */
struct kurgashel_proxy_question {
    uint8_t refusal;
    bool negative;
    size_t length;
    uint8_t name[255];
};

/* A question for a name (uncompressed, as on the wire) and a type. Refusals 6, 7, 13. */
struct kurgashel_proxy_question kurgashel_proxy_question(const uint8_t *rich, size_t rich_bytes, const uint8_t *ldh, size_t ldh_bytes, const uint8_t *name,
                                                         size_t name_bytes, uint16_t rtype);

/* What becomes of a record of the link: a refusal, or 0; whether it is passed on. What is neither refused nor passed on is left out: it is malformed, of another
 * type than A, PTR, TXT, AAAA and SRV, or a cached one that is not live. Passed on are its type, its class without the top bit, its TTL, at most 10, its owner,
 * uncompressed and with zeros behind it, and rdata of `rdata_length` bytes: where `named` (PTR and SRV) it stands in `rdata`, its target uncompressed; else it
 * is that of the record as it lies, not copied. Names under "local" go under `rich` (owners of PTR, SRV and TXT, targets of PTR) or `ldh` (owners of A and AAAA,
 * targets of SRV); others stay. */
struct kurgashel_proxy_record {
    uint8_t refusal;
    bool passed, named;
    uint16_t rtype, class_;
    uint32_t ttl;
    size_t owner_length, rdata_length;
    uint8_t owner[255], rdata[261];
};

/* The record at an offset of a message (see kurgashel_record). Refusals 7, 13. */
struct kurgashel_proxy_record kurgashel_proxy_record(const uint8_t *rich, size_t rich_bytes, const uint8_t *ldh, size_t ldh_bytes, const uint8_t *message,
                                                     size_t message_bytes, size_t at);

/* A record of which owner and rdata are uncompressed. Refusals 7, 13. */
struct kurgashel_proxy_record kurgashel_proxy_plain_record(const uint8_t *rich, size_t rich_bytes, const uint8_t *ldh, size_t ldh_bytes, const uint8_t *owner,
                                                           size_t owner_bytes, uint16_t rtype, uint16_t class_, uint32_t ttl, const uint8_t *rdata,
                                                           size_t rdata_bytes);

/* The record of an entry of a cache and the 1,024 bytes of its slot; its TTL is what is left, in whole seconds. Refusals 1, 8, 7, 13: 1 and 8 of this entry
 * alone. */
struct kurgashel_proxy_record kurgashel_proxy_cached(const uint8_t *rich, size_t rich_bytes, const uint8_t *ldh, size_t ldh_bytes, uint64_t now,
                                                     struct kurgashel_entry entry, const uint8_t *slot, size_t slot_bytes);

/* ---- TXT pairs */

enum { KURGASHEL_ABSENT = 0, KURGASHEL_PRESENT = 1, KURGASHEL_EMPTY = 2, KURGASHEL_VALUE = 3 };
enum { KURGASHEL_RECEIVED = 0, KURGASHEL_FACTORY = 1 };

/* A refusal or 0; what the key says: absent, present without value, empty value, or a value; and where the value lies: the buffer, the place in it and the
 * length. Without a value that is the empty part at the received TXT's start. */
struct kurgashel_pair {
    uint8_t refusal, answer, buffer;
    size_t at, length;
};

/* Looks a key up in the TXT that was received and, when it is absent there, in the factory TXT. Refusals 9, 6. */
struct kurgashel_pair kurgashel_txt_lookup(const uint8_t *key, size_t key_bytes, const uint8_t *received, size_t received_bytes, const uint8_t *factory,
                                           size_t factory_bytes);

/* ---- traces (docs/TRACE.md) */

enum {
    KURGASHEL_TRACE_END = 0,
    KURGASHEL_TRACE_TICK = 1,
    KURGASHEL_TRACE_PACKET = 2,
    KURGASHEL_TRACE_CLAIM = 4,
    KURGASHEL_TRACE_STOP = 6,
    KURGASHEL_TRACE_PORT = 7,
    KURGASHEL_TRACE_TXT = 8
};
#define KURGASHEL_TRACE_USUAL_HOLD 400 /* the hold draw of a packet whose source is not told; its address is 0, 0 */

/* An event of a trace: refusal 12 or 0; its kind, END at the trace's end or where it is refused; the offset behind it, or that of the refusal; the time, of a claim
 * the responder's last time; of a packet the first and last eight bytes of its source address as numbers, its port and draws; of an update of the port that port; the
 * claim (0 the instance's, 1 the host's) and its state; and how many bytes it brings: a packet or TXT. All else is 0. */
struct kurgashel_trace_event {
    uint8_t refusal, kind;
    size_t at;
    uint64_t time, high, low, port, draw, hold, claim, state;
    size_t length;
};

/* The event at an offset, which is 0 or the offset behind another event. Refusal 12, with the offset of the first record that is malformed or cannot stand where it
 * does, or of the end where one is owed. The events before a refusal stand: a trace whose end is lost can be used. */
struct kurgashel_trace_event kurgashel_trace_next(const uint8_t *trace, size_t trace_bytes, size_t at);

/* Copies the bytes that the event at an offset brings to `out`, as many as fit, and gives how many they are. */
size_t kurgashel_trace_bytes(const uint8_t *trace, size_t trace_bytes, size_t at, uint8_t *out, size_t out_bytes);

/* A refusal or 0, and an offset. */
struct kurgashel_trace_answer {
    uint8_t refusal;
    size_t at;
};

/* Whether a whole trace is read: 12 with the offset, or 0 and its length. */
struct kurgashel_trace_answer kurgashel_trace_check(const uint8_t *trace, size_t trace_bytes);

/* Writes an event at an offset of `out`, and gives the offset behind it. What is not of its kind is passed over. Refusal 12 for a value that its field cannot hold,
 * or a kind that there is not, with the offset that its record would have; then 3 where `out` is too small for all of the event. Nothing is written then. */
struct kurgashel_trace_answer kurgashel_trace_write(uint8_t *out, size_t out_bytes, size_t at, uint8_t kind, uint64_t time, uint64_t high, uint64_t low,
                                                    uint64_t port, uint64_t draw, uint64_t hold, uint64_t claim, uint64_t state, const uint8_t *bytes,
                                                    size_t bytes_bytes);

/* What playing an event came to: a refusal or 0; whether it is a call, a claim that was recorded, or none, at the trace's end or where it is refused; of a call
 * the refusal with which it was answered, or 0; of a claim what was recorded, the responder's last time, the claim and its state, and whether the responder
 * agrees; and the offset behind the event, or that of the refusal. All else is 0. */
enum { KURGASHEL_PLAYED_END = 0, KURGASHEL_PLAYED_CALL = 1, KURGASHEL_PLAYED_CLAIM = 2 };
struct kurgashel_played {
    uint8_t refusal, turn, call;
    bool agrees;
    size_t at;
    uint64_t last, claim, state;
};

/* Plays the event at an offset, which is 0 or the offset behind another event, to the responder in `state`, which kurgashel_start has begun as the recorded one
 * was: a call is made as it was recorded, with out buffers of 1,452 bytes, and what it sends is not given; a claim is compared. `state` has the bytes then that
 * the call itself leaves, those that it had where the call is refused. Refusals 7, where `state` has another size, and 12. A packet or TXT of up to 65,535 bytes is
 * put together on the stack: give this call 128 KiB of it. */
struct kurgashel_played kurgashel_play(uint8_t *state, size_t state_bytes, const uint8_t *trace, size_t trace_bytes, size_t at);

/* ---- the reader */

/* A message as it lies: a refusal (4, 5 or 6) or 0, the ID and flags, how many questions and records each section has and where it starts, and the offset
 * past the last record. Where it is refused all else is 0. The source port is the caller's to test. */
struct kurgashel_message {
    uint8_t refusal;
    uint16_t id, flags, questions, answers, authorities, additionals;
    size_t questions_at, answers_at, authorities_at, additionals_at, end;
};
struct kurgashel_message kurgashel_message(const uint8_t *message, size_t message_bytes);

/* The refusal alone. */
uint8_t kurgashel_message_refusal(const uint8_t *message, size_t message_bytes);

/* Of a name that is read, `labels` is how many labels it has, pointers followed: 0 to 127, and 0 for the root alone. `first_label` is the length of the first,
 * 0 to 63, such as that of the instance in the name of one; it stands behind its length byte, at 1 of the uncompressed bytes. */

/* The question at an offset: type and class as on the wire, the offset of its name, its uncompressed length and its labels, and the offset past it, where the
 * section's next one starts. All is 0 where none is found, which does not happen inside a section of a message that is not refused. */
struct kurgashel_question {
    bool found;
    uint16_t rtype, class_;
    size_t name, name_length, name_labels, name_first_label, next;
};
struct kurgashel_question kurgashel_question(const uint8_t *message, size_t message_bytes, size_t at);

/* The record at an offset: class as on the wire, with its top bit; the TTL as it counts, 0 where its top bit is set; the rdata as a part of the message, which
 * the calls below read. The target of a PTR is the name at `rdata`. */
struct kurgashel_record {
    bool found;
    uint16_t rtype, class_;
    uint32_t ttl;
    size_t owner, owner_length, owner_labels, owner_first_label, rdata, rdata_length, next;
};
struct kurgashel_record kurgashel_record(const uint8_t *message, size_t message_bytes, size_t at);

/* The same without the owner, of the record whose owner ends at an offset (kurgashel_name_into): the owner is not read again. */
struct kurgashel_fields {
    bool found;
    uint16_t rtype, class_;
    uint32_t ttl;
    size_t rdata, rdata_length, next;
};
struct kurgashel_fields kurgashel_fields(const uint8_t *message, size_t message_bytes, size_t end);

/* The address in the rdata of an A (rtype 1) or an AAAA (rtype 28): 4 or 16 bytes, 0 where there is none, with zeros behind them. */
struct kurgashel_address {
    size_t length;
    uint8_t bytes[16];
};
struct kurgashel_address kurgashel_address(const uint8_t *message, size_t message_bytes, uint16_t rtype, size_t rdata, size_t rdata_length);

/* The SRV in the rdata of one: priority, weight, port, the offset of its target's name, the uncompressed length of that and its labels. All is 0 where none is
 * found, which does not happen in a message that is not refused. Of an entry of the cache the rdata itself is the message, since the names in it are uncompressed. */
struct kurgashel_srv {
    bool found;
    uint16_t priority, weight, port;
    size_t target, target_length, target_labels, target_first_label;
};
struct kurgashel_srv kurgashel_srv(const uint8_t *message, size_t message_bytes, size_t rdata, size_t rdata_length);

/* The NSEC (type 47) of the restricted kind in the rdata of one, for the record whose owner stands at an offset: the offset of its next name, the uncompressed
 * length of that and its labels; and where its window block starts and how long it is. All is 0 where none is found: any other NSEC says nothing here. Of an
 * entry of the cache the rdata itself is the message, and the owner, which the next name equals, stands at 0 too. */
struct kurgashel_nsec {
    bool found;
    size_t next, next_length, next_labels, next_first_label, block, block_length;
};
struct kurgashel_nsec kurgashel_nsec(const uint8_t *message, size_t message_bytes, size_t owner, size_t rdata, size_t rdata_length);

/* Whether a window block says that the name has records of a type. What it does not name does not exist there. */
bool kurgashel_nsec_names(const uint8_t *block, size_t block_bytes, uint16_t rtype);

/* The string at a place of a TXT, which is the rdata of one: where its text starts, how long that is, and where the next string starts. From the TXT's end on
 * none is found. Refusal 6 where the string runs past the end, which does not happen in a message that is not refused. */
struct kurgashel_txt_string {
    uint8_t refusal;
    bool found;
    size_t text, length, next;
};
struct kurgashel_txt_string kurgashel_txt_string(const uint8_t *txt, size_t txt_bytes, size_t at);

/* The name at an offset, uncompressed: its length, zero byte included, 0 where it is malformed; its labels; and its bytes, with zeros behind them. */
struct kurgashel_name {
    size_t length, labels, first_label;
    uint8_t bytes[255];
};
struct kurgashel_name kurgashel_name(const uint8_t *message, size_t message_bytes, size_t at);

/* The same name, written over the first bytes of `out`, the others left as they are: the offset past it in the message, its uncompressed length, at most
 * 255, and its labels. All is 0, and nothing is written, where it is malformed or longer than `out`. So a name is expanded where it is to stay. */
struct kurgashel_name_span {
    size_t end, length, labels, first_label;
};
struct kurgashel_name_span kurgashel_name_into(const uint8_t *message, size_t message_bytes, size_t at, uint8_t *out, size_t out_bytes);

/* The offset past the name at an offset, and its uncompressed length; each 0 where the name is malformed. Nothing is copied. */
size_t kurgashel_name_end(const uint8_t *message, size_t message_bytes, size_t at);
size_t kurgashel_name_length(const uint8_t *message, size_t message_bytes, size_t at);

#ifdef __cplusplus
}
#endif

#endif
