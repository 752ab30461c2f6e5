#include "exported.h"
#include "kurgashel.h"
#include <inttypes.h>
#include <stdarg.h>
#include <stdio.h>
#include <stdlib.h>
#include <string.h>

enum { BUFFER = 4096, MOST_FIELDS = 20001, MOST_TRACE = 1 << 17, FIRST_ENTRIES = 64 };

static uint8_t state[KURGASHEL_STATE_BYTES], out[BUFFER], unicast[BUFFER];
static bool is_started;
static struct kurgashel_entry *table;
static uint8_t *store;
static size_t entries, store_bytes;
static struct kurgashel_browser browser;
static uint8_t *rich, *ldh;
static size_t rich_bytes, ldh_bytes;
static const char *wrong;

static void *room(size_t bytes) {
    void *new = malloc(bytes ? bytes : 1);
    if (!new) abort();
    return new;
}

// ---- the answer

static char *text;
static size_t length, most;

static void need(size_t more) {
    if (length + more < most) return;
    most = 2 * (length + more) + BUFFER;
    text = realloc(text, most);
    if (!text) abort();
}

static void say(const char *form, ...) __attribute__((format(printf, 1, 2)));
static void say(const char *form, ...) {
    va_list values;
    need(256);
    va_start(values, form);
    length += vsnprintf(text + length, 256, form, values);
    va_end(values);
}

static void say_bytes(const uint8_t *bytes, size_t count) {
    if (!count) { say("-"); return; }
    need(2 * count + 1);
    for (size_t i = 0; i < count; i++) {
        text[length++] = "0123456789abcdef"[bytes[i] >> 4];
        text[length++] = "0123456789abcdef"[bytes[i] & 15];
    }
}

// A refusal, if it is one.
static bool refused(uint8_t refusal) {
    if (refusal) say("refused %u", refusal);
    return refusal;
}

// ---- the fields of a line

struct bytes {
    uint8_t *at;
    size_t count;
};

static struct { const char *at; size_t count; } fields[MOST_FIELDS];
static size_t field_count;

static void split(const char *line, size_t bytes) {
    field_count = 0;
    for (size_t start = 0, at = 0; at <= bytes && field_count < MOST_FIELDS; at++)
        if (at == bytes || line[at] == ' ') {
            fields[field_count].at = line + start;
            fields[field_count++].count = at - start;
            start = at + 1;
        }
}

static bool is(size_t field, const char *word) { return field < field_count && fields[field].count == strlen(word) && !memcmp(fields[field].at, word, fields[field].count); }

// Only lines that the reference program finds to be of their form come here, so that nothing is to be tested.
static uint64_t number(size_t field) {
    uint64_t value = 0;
    for (size_t i = 0; field < field_count && i < fields[field].count; i++) value = 10 * value + (uint64_t)(fields[field].at[i] - '0');
    return value;
}

static size_t number_or(size_t field, size_t usual) { return field < field_count ? number(field) : usual; }

static uint8_t digit(char c) { return c <= '9' ? c - '0' : (c | 32) - 'a' + 10; }

// The bytes of a field, in memory of just their size, so that whoever reads past them is seen by what watches memory.
static struct bytes bytes_of(size_t field) {
    size_t count = field >= field_count || is(field, "-") ? 0 : fields[field].count / 2;
    struct bytes b = { room(count), count };
    for (size_t i = 0; i < count; i++) b.at[i] = digit(fields[field].at[2 * i]) << 4 | digit(fields[field].at[2 * i + 1]);
    return b;
}

// A copy of the beginning of a buffer, of just its size, to be lent; and back.
static uint8_t *lend(const uint8_t *buffer, size_t bytes) { return memcpy(room(bytes), buffer, bytes); }
static void take_back(uint8_t *buffer, uint8_t *lent, size_t bytes, bool is_refused) {
    if (is_refused && memcmp(buffer, lent, bytes)) wrong = "a refused call changed a lent buffer";
    memcpy(buffer, lent, bytes);
    free(lent);
}

// The state while a call has it.
static uint8_t *lend_state(void) { return lend(state, sizeof state); }
static void take_state_back(uint8_t *lent, bool is_refused) { take_back(state, lent, sizeof state, is_refused); }

// ---- the responder

static void set_label(uint8_t *label, size_t most_bytes, uint8_t *label_length, struct bytes b) {
    memcpy(label, b.at, b.count < most_bytes ? b.count : most_bytes);
    *label_length = b.count < 255 ? b.count : 255;
    free(b.at);
}

// Of another length than so many bytes, all zeros.
static void set_fixed(uint8_t *place, size_t count, struct bytes b) {
    if (b.count == count) memcpy(place, b.at, count);
    free(b.at);
}

static void start(void) {
    struct kurgashel_setup setup = { 0 };
    set_label(setup.instance, sizeof setup.instance, &setup.instance_length, bytes_of(3));
    set_label(setup.service, sizeof setup.service, &setup.service_length, bytes_of(4));
    set_fixed(setup.protocol, sizeof setup.protocol, bytes_of(5));
    set_label(setup.host, sizeof setup.host, &setup.host_length, bytes_of(6));
    set_fixed(setup.domain, sizeof setup.domain, bytes_of(7));
    setup.port[0] = number(8) >> 8, setup.port[1] = number(8) & 255;
    struct bytes txt = bytes_of(9);
    memcpy(setup.txt, txt.at, txt.count < sizeof setup.txt ? txt.count : sizeof setup.txt);
    setup.txt_length[0] = txt.count >> 8, setup.txt_length[1] = txt.count & 255;
    free(txt.at);
    set_fixed(setup.a, sizeof setup.a, bytes_of(10));
    setup.has_aaaa = !is(11, "-");
    set_fixed(setup.aaaa, sizeof setup.aaaa, bytes_of(11));
    uint8_t *given = lend((uint8_t *)&setup, sizeof setup), *lent = lend_state();
    struct kurgashel_answer a = kurgashel_start(lent, sizeof state, given, sizeof setup, number(1), number(2));
    free(given);
    take_state_back(lent, a.refusal);
    if (!refused(a.refusal)) is_started = true, say("started");
}

static void say_sent(struct kurgashel_answer a) {
    if (refused(a.refusal)) return;
    if (!a.length && !a.unicast_length) say("quiet");
    if (a.length) say("sent "), say_bytes(out, a.length);
    if (a.length && a.unicast_length) say(" ");
    if (a.unicast_length) say("unicast "), say_bytes(unicast, a.unicast_length);
    if (a.length && a.more) say(" more");
}

static void receive(void) {
    struct bytes from = bytes_of(2), packet = bytes_of(6);
    size_t lent_out = number_or(7, KURGASHEL_OUT_BYTES), lent_unicast = number_or(8, KURGASHEL_OUT_BYTES);
    uint8_t *s = lend_state(), *o = lend(out, lent_out), *u = lend(unicast, lent_unicast);
    struct kurgashel_answer a = kurgashel_receive(s, sizeof state, number(1), from.at, from.count, (uint16_t)number(3), number(4), number(5), packet.at,
        packet.count, o, lent_out, u, lent_unicast);
    take_state_back(s, a.refusal), take_back(out, o, lent_out, a.refusal), take_back(unicast, u, lent_unicast, a.refusal);
    free(from.at), free(packet.at);
    say_sent(a);
}

static void tick(bool is_stop) {
    size_t lent_out = number_or(2, KURGASHEL_OUT_BYTES);
    uint8_t *s = lend_state(), *o = lend(out, lent_out);
    struct kurgashel_answer a = is_stop ? kurgashel_stop(s, sizeof state, number(1), o, lent_out) : kurgashel_tick(s, sizeof state, number(1), o, lent_out);
    take_state_back(s, a.refusal), take_back(out, o, lent_out, a.refusal);
    say_sent(a);
}

static void update(void) {
    size_t lent_out = number_or(4, KURGASHEL_OUT_BYTES);
    uint8_t *s = lend_state(), *o = lend(out, lent_out);
    struct bytes txt = bytes_of(3);
    struct kurgashel_answer a = is(2, "port") ? kurgashel_update_port(s, sizeof state, number(1), (uint16_t)number(3), o, lent_out)
                                              : kurgashel_update_txt(s, sizeof state, number(1), txt.at, txt.count, o, lent_out);
    free(txt.at);
    take_state_back(s, a.refusal), take_back(out, o, lent_out, a.refusal);
    say_sent(a);
}

static uint64_t word(size_t at) {
    uint64_t value = 0;
    for (size_t i = 0; i < 8; i++) value = value << 8 | state[at + i];
    return value;
}

static void say_time(const char *before, bool is_set, size_t at) {
    if (is_set) say("%s%" PRIu64, before, word(at));
    else say("%s-", before);
}

static const char *const states[] = { "waiting", "probing", "deferred", "held", "lost" };

// The times that a state keeps, by its layout, which no exported function tells.
static void claims(void) {
    say("%" PRIu64 " instance %s ", word(842), states[kurgashel_claim(state, sizeof state, KURGASHEL_INSTANCE)]);
    say_time("", state[579] < 6, 580);
    say(" host %s ", states[kurgashel_claim(state, sizeof state, KURGASHEL_HOST)]);
    say_time("", state[588] < 6, 589);
    say_time(" reply ", state[660] % 2, 661);
    say_time(" updated ", state[669] % 2, 670);
}

// The held queries: four places of 39 bytes, each of an address, a flag and a due time, and two flags for each record.
static void holds(void) {
    bool any = false;
    say("holds");
    for (size_t at = 678; at < 678 + 4 * 39; at += 39)
        if (state[at + 16] % 2) {
            any = true;
            say(" "), say_bytes(state + at, 16), say(" %" PRIu64, word(at + 17));
        }
    if (!any) say(" -");
}

// All of a state, by its layout: the set-up; the claims, by case and due time; when each of the seven records was last multicast; the reply; the last update;
// the held queries with what each asks for and knows, of an AAAA which there is not nothing; the start's draw and the last time.
static void whole_state(void) {
    const struct kurgashel_setup *s = (const struct kurgashel_setup *)state;
    say_bytes(s->instance, s->instance_length), say(" "), say_bytes(s->service, s->service_length), say(" "), say_bytes(s->protocol, sizeof s->protocol);
    say(" "), say_bytes(s->host, s->host_length), say(" "), say_bytes(s->domain, sizeof s->domain), say(" %u ", s->port[0] << 8 | s->port[1]);
    say_bytes(s->txt, s->txt_length[0] << 8 | s->txt_length[1]), say(" "), say_bytes(s->a, sizeof s->a);
    say(" "), say_bytes(s->aaaa, s->has_aaaa % 2 * sizeof s->aaaa);
    for (size_t at = 579; at < 597; at += 9) say(" %u", state[at]), say_time(" ", state[at] < 6, at + 1);
    for (size_t at = 597; at < 678; at += 9) say_time(" ", state[at] % 2, at + 1);
    for (size_t at = 678; at < 834; at += 39)
        if (state[at + 16] % 2) {
            say(" "), say_bytes(state + at, 16), say(" %" PRIu64 " ", word(at + 17));
            for (size_t i = 0; i < 14; i++) say("%c", i % 7 == 4 && !(s->has_aaaa % 2) ? '-' : '0' + state[at + 25 + i] % 2);
        }
    say(" %" PRIu64 " %" PRIu64, word(834), word(842));
}

// ---- the cache

static void make_table(size_t count, size_t bytes) {
    free(table), free(store);
    entries = count, store_bytes = bytes;
    table = memset(room(count * sizeof *table), 0, count * sizeof *table);
    store = memset(room(bytes), 0, bytes);
}

static void put(void) {
    struct bytes packet = bytes_of(3);
    size_t table_bytes = entries * sizeof *table;
    void *table_was = memcpy(room(table_bytes), table, table_bytes), *store_was = memcpy(room(store_bytes), store, store_bytes);
    struct kurgashel_taken t = kurgashel_cache_take(table, entries, store, store_bytes, number(1), (uint16_t)number(2), packet.at, packet.count);
    if (t.refusal && (memcmp(table, table_was, table_bytes) || memcmp(store, store_was, store_bytes))) wrong = "a refused message changed the cache";
    free(packet.at), free(table_was), free(store_was);
    if (!refused(t.refusal)) say("cached %" PRIu32 " %" PRIu32, t.turned_away, t.passed_over);
}

static void look(void) {
    struct bytes name = bytes_of(2);
    struct kurgashel_looked l = kurgashel_cache_look_up(table, entries, store, store_bytes, number(1), name.at, name.count, (uint16_t)number(3), number(4));
    free(name.at);
    if (refused(l.refusal)) return;
    if (!l.found) { say("none"); return; }
    const struct kurgashel_entry *e = table + l.slot;
    const uint8_t *slot = store + KURGASHEL_SLOT_BYTES * l.slot;
    say("slot %zu %" PRIu64 " %" PRIu64 " ", l.slot, e->received, e->expiry);
    say_bytes(slot, e->owner);
    say(" %zu %zu ", l.name_labels, l.name_first_label);
    say_bytes(slot + 256, e->rdata);
}

static void slot(void) {
    size_t at = number(1);
    const struct kurgashel_entry *e = table + at;
    say("slot %zu %u %u %" PRIu32 " %" PRIu64 " %" PRIu64 " %" PRIu64 " ", at, e->rtype, e->owner, e->rdata, e->received, e->expiry, e->ttl);
    say_bytes(store + KURGASHEL_SLOT_BYTES * at, KURGASHEL_SLOT_BYTES);
}

// ---- the browser

// Field by field, since there are bytes between the fields.
static bool is_same_browser(struct kurgashel_browser a, struct kurgashel_browser b) {
    return !memcmp(a.service, b.service, sizeof a.service) && !memcmp(a.protocol, b.protocol, sizeof a.protocol) && !memcmp(a.domain, b.domain, sizeof a.domain)
        && a.service_length == b.service_length && a.draw == b.draw && a.refresh == b.refresh && a.series == b.series && a.count == b.count && a.query == b.query
        && a.owed == b.owed && a.last == b.last;
}

static void browse(void) {
    struct bytes service = bytes_of(4), protocol = bytes_of(5), domain = bytes_of(6);
    struct kurgashel_browser_begun b = kurgashel_browse_start(service.at, service.count, protocol.at, protocol.count, domain.at, domain.count, number(1),
        number(2), number(3));
    free(service.at), free(protocol.at), free(domain.at);
    if (refused(b.refusal)) return;
    browser = b.browser;
    say("browsing");
}

static void ask(void) {
    size_t lent_out = number_or(2, KURGASHEL_OUT_BYTES);
    struct kurgashel_browser_due d = kurgashel_browse_due(table, entries, store, store_bytes, browser, number(1));
    uint8_t *o = lend(out, lent_out);
    struct kurgashel_browser_asked a = kurgashel_browse_tick(table, entries, store, store_bytes, browser, number(1), o, lent_out);
    if (a.refusal && !is_same_browser(a.browser, browser)) wrong = "a refused tick of a browser changed it";
    if (!a.refusal && (d.refusal || (number(1) < d.time && a.length))) wrong = "a browser sent before its due time";
    browser = a.browser;
    take_back(out, o, lent_out, a.refusal);
    say_sent((struct kurgashel_answer){ .refusal = a.refusal, .more = a.more, .length = a.length });
}

static void list(void) {
    struct kurgashel_browser_listed l;
    bool any = false;
    for (size_t from = 0; !(l = kurgashel_browse_list(table, entries, store, store_bytes, browser, number(1), from)).refusal && l.found; from = l.slot + 1) {
        say(any ? " %zu " : "list %zu ", l.slot);
        say_bytes(store + KURGASHEL_SLOT_BYTES * l.slot + 256, table[l.slot].rdata);
        any = true;
    }
    if (!any && !refused(l.refusal)) say("list -");
}

// ---- the proxy

static void proxy(void) {
    struct bytes new_rich = bytes_of(1), new_ldh = bytes_of(2);
    if (refused(kurgashel_proxy_refusal(new_rich.at, new_rich.count, new_ldh.at, new_ldh.count))) {
        free(new_rich.at), free(new_ldh.at);
        return;
    }
    free(rich), free(ldh);
    rich = new_rich.at, rich_bytes = new_rich.count, ldh = new_ldh.at, ldh_bytes = new_ldh.count;
    say("proxied");
}

static void question(void) {
    struct bytes name = bytes_of(1);
    struct kurgashel_proxy_question q = kurgashel_proxy_question(rich, rich_bytes, ldh, ldh_bytes, name.at, name.count, (uint16_t)number(2));
    free(name.at);
    if (refused(q.refusal)) return;
    if (q.negative) say("negative");
    else say("ask "), say_bytes(q.name, q.length);
}

static void say_record(struct kurgashel_proxy_record r, const uint8_t *lying) {
    if (refused(r.refusal)) return;
    if (!r.passed) { say("left"); return; }
    say("record "), say_bytes(r.owner, r.owner_length);
    say(" %u %u %" PRIu32 " ", r.rtype, r.class_, r.ttl);
    say_bytes(r.named ? r.rdata : lying, r.rdata_length);
}

static void answer(void) {
    struct bytes owner = bytes_of(1), rdata = bytes_of(5);
    say_record(kurgashel_proxy_plain_record(rich, rich_bytes, ldh, ldh_bytes, owner.at, owner.count, (uint16_t)number(2), (uint16_t)number(3),
        (uint32_t)number(4), rdata.at, rdata.count), rdata.at);
    free(owner.at), free(rdata.at);
}

static void cached(void) {
    static const uint8_t root[1];
    struct kurgashel_looked l = kurgashel_cache_look_up(table, entries, store, store_bytes, number(1), root, 1, 0, entries);
    if (refused(l.refusal)) return;
    const uint8_t *lying = store + KURGASHEL_SLOT_BYTES * number(2);
    say_record(kurgashel_proxy_cached(rich, rich_bytes, ldh, ldh_bytes, number(1), table[number(2)], lying, KURGASHEL_SLOT_BYTES), lying + 256);
}

// ---- TXT, traces

static void txt(void) {
    struct bytes key = bytes_of(1), received = bytes_of(2), factory = bytes_of(3);
    struct kurgashel_pair p = kurgashel_txt_lookup(key.at, key.count, received.at, received.count, factory.at, factory.count);
    if (!refused(p.refusal)) switch (p.answer) {
        case KURGASHEL_ABSENT: say("absent"); break;
        case KURGASHEL_PRESENT: say("present"); break;
        case KURGASHEL_EMPTY: say("empty"); break;
        default:
            say("value %s %zu ", p.buffer == KURGASHEL_FACTORY ? "factory" : "received", p.at);
            say_bytes((p.buffer == KURGASHEL_FACTORY ? factory.at : received.at) + p.at, p.length);
    }
    free(key.at), free(received.at), free(factory.at);
}

static void say_address(uint64_t high, uint64_t low) { say(" %016" PRIx64 "%016" PRIx64, high, low); }

static void say_event(const uint8_t *trace, size_t trace_bytes, size_t at, struct kurgashel_trace_event e) {
    uint8_t *bytes = room(e.length);
    if (kurgashel_trace_bytes(trace, trace_bytes, at, bytes, e.length) != e.length) wrong = "an event brings another number of bytes than it says";
    switch (e.kind) {
    case KURGASHEL_TRACE_TICK: say(" tick %" PRIu64, e.time); break;
    case KURGASHEL_TRACE_STOP: say(" stop %" PRIu64, e.time); break;
    case KURGASHEL_TRACE_PORT: say(" port %" PRIu64 " %" PRIu64, e.time, e.port); break;
    case KURGASHEL_TRACE_CLAIM: say(" claim %" PRIu64 " %" PRIu64 " %" PRIu64, e.time, e.claim, e.state); break;
    case KURGASHEL_TRACE_TXT: say(" txt %" PRIu64 " ", e.time), say_bytes(bytes, e.length); break;
    case KURGASHEL_TRACE_PACKET:
        say(" recv %" PRIu64, e.time), say_address(e.high, e.low);
        say(" %" PRIu64 " %" PRIu64 " %" PRIu64 " ", e.port, e.draw, e.hold), say_bytes(bytes, e.length);
    }
    free(bytes);
}

static void trace(void) {
    struct bytes t = bytes_of(1);
    struct kurgashel_trace_answer whole = kurgashel_trace_check(t.at, t.count);
    struct kurgashel_trace_event e;
    if (whole.refusal) say("refused %u %zu", whole.refusal, whole.at);
    else say("events");
    size_t at = 0;
    for (; !(e = kurgashel_trace_next(t.at, t.count, at)).refusal && e.kind != KURGASHEL_TRACE_END; at = e.at)
        if (!whole.refusal) say_event(t.at, t.count, at, e);
    if (e.refusal != whole.refusal || e.at != whole.at) wrong = "a trace is read in another way event by event";
    free(t.at);
}

// The call that an event records, made on a state with out buffers of 1,452 bytes; how it was answered, 0 of a claim.
static uint8_t call_recorded(uint8_t *s, size_t s_bytes, struct bytes t, size_t at) {
    struct kurgashel_trace_event e = kurgashel_trace_next(t.at, t.count, at);
    uint8_t o[KURGASHEL_OUT_BYTES], u[KURGASHEL_OUT_BYTES], from[16], *bytes = room(e.length);
    kurgashel_trace_bytes(t.at, t.count, at, bytes, e.length);
    for (size_t i = 0; i < 8; i++) from[i] = e.high >> (56 - 8 * i), from[8 + i] = e.low >> (56 - 8 * i);
    struct kurgashel_answer a = { 0 };
    switch (e.kind) {
    case KURGASHEL_TRACE_TICK: a = kurgashel_tick(s, s_bytes, e.time, o, sizeof o); break;
    case KURGASHEL_TRACE_STOP: a = kurgashel_stop(s, s_bytes, e.time, o, sizeof o); break;
    case KURGASHEL_TRACE_PORT: a = kurgashel_update_port(s, s_bytes, e.time, (uint16_t)e.port, o, sizeof o); break;
    case KURGASHEL_TRACE_TXT: a = kurgashel_update_txt(s, s_bytes, e.time, bytes, e.length, o, sizeof o); break;
    case KURGASHEL_TRACE_PACKET:
        a = kurgashel_receive(s, s_bytes, e.time, from, sizeof from, (uint16_t)e.port, e.draw, e.hold, bytes, e.length, o, sizeof o, u, sizeof u);
    }
    free(bytes);
    return a.refusal;
}

// Plays an event to a state: its bytes have to be what the call that was recorded leaves, and to stay where that, the event or the state's size is refused.
static struct kurgashel_played play_event(uint8_t *s, size_t s_bytes, struct bytes t, size_t at) {
    uint8_t *lent = lend(s, s_bytes), *called = lend(s, s_bytes);
    struct kurgashel_played p = kurgashel_play(lent, s_bytes, t.at, t.count, at);
    uint8_t call = p.turn == KURGASHEL_PLAYED_CALL ? call_recorded(called, s_bytes, t, at) : 0;
    if (p.call != call) wrong = "a call that is played is answered in another way";
    if (p.turn != KURGASHEL_PLAYED_CLAIM && (p.agrees || p.last || p.claim || p.state)) wrong = "what is no claim has something of one";
    if (memcmp(lent, called, s_bytes)) wrong = "a call that is played leaves other bytes";
    take_back(s, lent, s_bytes, p.refusal || p.call || p.turn != KURGASHEL_PLAYED_CALL);
    free(called);
    return p;
}

// On bytes that are no state, or none that a start made: with a byte less, and with one changed.
static void play_elsewhere(struct bytes t, size_t at) {
    uint8_t *other = lend(state, sizeof state);
    size_t changed = (t.count + at) * 31 % sizeof state;
    other[changed] ^= 1 << at % 8;
    play_event(other, sizeof state, t, at);
    struct kurgashel_played p = play_event(other, sizeof state - 1, t, at);
    if (p.refusal != KURGASHEL_SETUP || p.turn != KURGASHEL_PLAYED_END || p.at != at) wrong = "a state of another size is not refused";
    free(other);
}

static void play(void) {
    struct bytes t = bytes_of(1);
    struct kurgashel_trace_answer whole = kurgashel_trace_check(t.at, t.count);
    struct kurgashel_played p;
    if (whole.refusal) say("refused %u %zu", whole.refusal, whole.at);
    else say("played");
    size_t at = 0;
    for (;; at = p.at) {
        play_elsewhere(t, at);
        if ((p = play_event(state, sizeof state, t, at)).refusal || p.turn == KURGASHEL_PLAYED_END) break;
        if (p.turn == KURGASHEL_PLAYED_CLAIM)
            say(" %" PRIu64 " %s %s %s", p.last, p.claim ? "host" : "instance", p.state < 5 ? states[p.state] : "?", p.agrees ? "ok" : "bad");
    }
    if (p.refusal != whole.refusal || p.at != whole.at) wrong = "a trace is played up to elsewhere than it is read";
    free(t.at);
}

static uint8_t trace_kind(size_t field) {
    static const struct { const char *word; uint8_t kind; } kinds[] = { { "tick", KURGASHEL_TRACE_TICK }, { "recv", KURGASHEL_TRACE_PACKET },
        { "claim", KURGASHEL_TRACE_CLAIM }, { "stop", KURGASHEL_TRACE_STOP }, { "port", KURGASHEL_TRACE_PORT }, { "txt", KURGASHEL_TRACE_TXT } };
    for (size_t i = 0; i < sizeof kinds / sizeof *kinds; i++)
        if (is(field, kinds[i].word)) return kinds[i].kind;
    return 0;
}

static uint64_t big_endian(const uint8_t *bytes) {
    uint64_t value = 0;
    for (size_t i = 0; i < 8; i++) value = value << 8 | bytes[i];
    return value;
}

// Writes the event whose words begin at a field, and moves the field behind them.
static struct kurgashel_trace_answer write_event(uint8_t *to, size_t to_bytes, size_t at, size_t *field) {
    uint8_t kind = trace_kind(*field);
    size_t f = *field + 1;
    uint64_t time = number(f++), port = 0, draw = 0, hold = 0, claim = 0, claim_state = 0;
    uint8_t address[16] = { [10] = 0xff, [11] = 0xff };
    struct bytes b = { NULL, 0 };
    switch (kind) {
    case KURGASHEL_TRACE_PACKET: {
        struct bytes from = bytes_of(f++);
        memcpy(address + 16 - from.count, from.at, from.count);
        free(from.at);
        port = number(f++), draw = number(f++), hold = number(f++), b = bytes_of(f++);
        break;
    }
    case KURGASHEL_TRACE_CLAIM: claim = number(f++), claim_state = number(f++); break;
    case KURGASHEL_TRACE_PORT: port = number(f++); break;
    case KURGASHEL_TRACE_TXT: b = bytes_of(f++);
    }
    *field = f;
    struct kurgashel_trace_answer a = kurgashel_trace_write(to, to_bytes, at, kind, time, big_endian(address), big_endian(address + 8), port, draw, hold, claim,
        claim_state, b.at, b.count);
    free(b.at);
    return a;
}

static struct kurgashel_trace_answer write_events(uint8_t *to, size_t to_bytes) {
    struct kurgashel_trace_answer a = { 0, 0 };
    for (size_t field = 2; field < field_count && !a.refusal;) a = write_event(to, to_bytes, a.at, &field);
    return a;
}

// All values are tested before the room is: so first with room enough, then with what is given.
static void record(void) {
    static uint8_t written[MOST_TRACE];
    struct kurgashel_trace_answer a = write_events(written, sizeof written);
    if (a.refusal) { say("refused %u %zu", a.refusal, a.at); return; }
    size_t given = number(1) < MOST_TRACE ? number(1) : MOST_TRACE;
    uint8_t *small = room(given);
    struct kurgashel_trace_answer fits = write_events(small, given);
    if (!refused(fits.refusal)) {
        if (fits.at != a.at || memcmp(small, written, a.at)) wrong = "what is written depends on the room";
        say("trace "), say_bytes(small, fits.at);
    }
    free(small);
}

// ---- the reader

static void say_numbers(size_t labels, size_t first) { say(" %zu %zu", labels, first); }

static struct kurgashel_name name_at(struct bytes m, size_t at, size_t name_length) {
    struct kurgashel_name n = kurgashel_name(m.at, m.count, at);
    if (n.length != name_length || n.length != kurgashel_name_length(m.at, m.count, at)) wrong = "a name has another length by another call";
    if (!kurgashel_name_end(m.at, m.count, at)) wrong = "a name that is read has no end";
    uint8_t *into = room(n.length);
    struct kurgashel_name_span s = kurgashel_name_into(m.at, m.count, at, into, n.length);
    if (s.end != kurgashel_name_end(m.at, m.count, at) || s.length != n.length || s.labels != n.labels || s.first_label != n.first_label
        || memcmp(into, n.bytes, n.length)) wrong = "a name that is written into a buffer is another";
    free(into);
    return n;
}

static void say_srv(struct bytes m, struct kurgashel_record r) {
    struct kurgashel_srv s = kurgashel_srv(m.at, m.count, r.rdata, r.rdata_length);
    uint8_t numbers[] = { s.priority >> 8, s.priority & 255, s.weight >> 8, s.weight & 255, s.port >> 8, s.port & 255 };
    say_bytes(numbers, sizeof numbers);
    say_bytes(name_at(m, s.target, s.target_length).bytes, s.target_length);
    say_numbers(s.target_labels, s.target_first_label);
}

static void say_nsec(struct bytes m, struct kurgashel_record r) {
    struct kurgashel_nsec n = kurgashel_nsec(m.at, m.count, r.owner, r.rdata, r.rdata_length);
    if (!n.found) { say_bytes(m.at + r.rdata, r.rdata_length); return; }
    say_bytes(name_at(m, n.next, n.next_length).bytes, n.next_length);
    say_bytes(m.at + n.block, n.block_length);
    say_numbers(n.next_labels, n.next_first_label);
    for (unsigned type = 0; type < 300; type++) { // a window block: its number, its length, and a bit for each type
        bool bit = type / 8 + 2 < n.block_length && type < 256 && m.at[n.block + 2 + type / 8] >> (7 - type % 8) & 1;
        if (kurgashel_nsec_names(m.at + n.block, n.block_length, type) != bit) wrong = "a window block names other types than its bits say";
    }
}

// Made again from its strings.
static void say_txt(struct bytes m, struct kurgashel_record r) {
    uint8_t *strings = room(r.rdata_length);
    size_t made = 0;
    struct kurgashel_txt_string s;
    for (size_t at = 0; (s = kurgashel_txt_string(m.at + r.rdata, r.rdata_length, at)).found && made + 1 + s.length <= r.rdata_length; at = s.next) {
        strings[made++] = s.length;
        memcpy(strings + made, m.at + r.rdata + s.text, s.length), made += s.length;
    }
    say_bytes(strings, made);
    free(strings);
}

static void say_rdata(struct bytes m, struct kurgashel_record r) {
    struct kurgashel_address a = kurgashel_address(m.at, m.count, r.rtype, r.rdata, r.rdata_length);
    switch (r.rtype) {
    case 1:
    case 28: say_bytes(a.bytes, a.length); break;
    case 12: {
        struct kurgashel_name n = kurgashel_name(m.at, m.count, r.rdata);
        say_bytes(n.bytes, n.length), say_numbers(n.labels, n.first_label);
        break;
    }
    case 16: say_txt(m, r); break;
    case 33: say_srv(m, r); break;
    case 47: say_nsec(m, r); break;
    default: say_bytes(m.at + r.rdata, r.rdata_length);
    }
}

// What the proxy makes of a record in a message is what it makes of the same record uncompressed.
static void compare_proxied(struct bytes m, size_t at, struct kurgashel_record r, const uint8_t *owner) {
    if (!rich || r.rtype == 47) return;
    struct kurgashel_proxy_record lying = kurgashel_proxy_record(rich, rich_bytes, ldh, ldh_bytes, m.at, m.count, at);
    uint8_t rdata[6 + 255];
    size_t rdata_bytes = r.rdata_length;
    const uint8_t *plain = m.at + r.rdata;
    if (r.rtype == 12 || r.rtype == 33) {
        size_t before = r.rtype == 33 ? 6 : 0;
        struct kurgashel_name n = kurgashel_name(m.at, m.count, r.rdata + before);
        memcpy(rdata, m.at + r.rdata, before), memcpy(rdata + before, n.bytes, n.length);
        plain = rdata, rdata_bytes = before + n.length;
    }
    struct kurgashel_proxy_record p = kurgashel_proxy_plain_record(rich, rich_bytes, ldh, ldh_bytes, owner, r.owner_length, r.rtype, r.class_, r.ttl, plain, rdata_bytes);
    if (lying.refusal != p.refusal || lying.passed != p.passed || lying.named != p.named || lying.rtype != p.rtype || lying.class_ != p.class_
        || lying.ttl != p.ttl || lying.owner_length != p.owner_length || lying.rdata_length != p.rdata_length || memcmp(lying.owner, p.owner, sizeof p.owner)
        || memcmp(lying.rdata, p.rdata, sizeof p.rdata)) wrong = "the proxy makes something else of a record as it lies";
}

static size_t say_section(struct bytes m, size_t at, size_t count, const char *section) {
    for (size_t i = 0; i < count; i++) {
        struct kurgashel_record r = kurgashel_record(m.at, m.count, at);
        if (!r.found) { wrong = "a record of a good message is not found"; return at; }
        struct kurgashel_name owner = name_at(m, r.owner, r.owner_length);
        say(" r %s ", section), say_bytes(owner.bytes, owner.length), say_numbers(r.owner_labels, r.owner_first_label);
        if (owner.labels != r.owner_labels || owner.first_label != r.owner_first_label) wrong = "a name has other labels by another call";
        struct kurgashel_fields f = kurgashel_fields(m.at, m.count, kurgashel_name_end(m.at, m.count, at));
        if (!f.found || f.rtype != r.rtype || f.class_ != r.class_ || f.ttl != r.ttl || f.rdata != r.rdata || f.rdata_length != r.rdata_length || f.next != r.next)
            wrong = "a record is another behind its owner";
        say(" %u %u %" PRIu32 " ", r.rtype, r.class_, r.ttl), say_rdata(m, r);
        compare_proxied(m, at, r, owner.bytes);
        at = r.next;
    }
    return at;
}

static void read_message(void) {
    struct bytes m = bytes_of(1);
    struct kurgashel_message h = kurgashel_message(m.at, m.count);
    if (h.refusal != kurgashel_message_refusal(m.at, m.count)) wrong = "the refusal alone is another";
    if (!refused(h.refusal)) {
        say("message %u %u", h.id, h.flags);
        size_t at = h.questions_at;
        for (size_t i = 0; i < h.questions; i++) {
            struct kurgashel_question q = kurgashel_question(m.at, m.count, at);
            if (!q.found) { wrong = "a question of a good message is not found"; break; }
            say(" q "), say_bytes(name_at(m, q.name, q.name_length).bytes, q.name_length), say_numbers(q.name_labels, q.name_first_label);
            say(" %u %u", q.rtype, q.class_);
            at = q.next;
        }
        if (at != h.answers_at) wrong = "the answers start elsewhere";
        at = say_section(m, at, h.answers, "an");
        if (at != h.authorities_at) wrong = "the authorities start elsewhere";
        at = say_section(m, at, h.authorities, "ns");
        if (at != h.additionals_at) wrong = "the additionals start elsewhere";
        if (say_section(m, at, h.additionals, "ar") != h.end) wrong = "the message ends elsewhere";
    }
    free(m.at);
}

// ---- lines

static void say_part(const char *which, const uint8_t *buffer) { say("%s ", which), say_bytes(buffer + number(1), number(2)); }

const char *exported_answer(const char *line, size_t bytes, size_t *answer_bytes) {
    length = 0, wrong = NULL;
    need(1);
    split(line, bytes);
    if (is(0, "start")) start();
    else if (is(0, "recv")) receive();
    else if (is(0, "tick")) tick(false);
    else if (is(0, "stop")) tick(true);
    else if (is(0, "update")) update();
    else if (is(0, "claims")) claims();
    else if (is(0, "holds")) holds();
    else if (is(0, "out")) say_part("out", out);
    else if (is(0, "unicast")) say_part("unicast", unicast);
    else if (is(0, "put")) put();
    else if (is(0, "look")) look();
    else if (is(0, "slot")) slot();
    else if (is(0, "clear")) make_table(entries, store_bytes), say("cleared");
    else if (is(0, "table")) make_table(number(1), number_or(2, KURGASHEL_SLOT_BYTES * number(1))), say("table");
    else if (is(0, "browse")) browse();
    else if (is(0, "ask")) ask();
    else if (is(0, "list")) list();
    else if (is(0, "proxy")) proxy();
    else if (is(0, "question")) question();
    else if (is(0, "answer")) answer();
    else if (is(0, "cached")) cached();
    else if (is(0, "txt")) txt();
    else if (is(0, "read")) read_message();
    else if (is(0, "trace")) trace();
    else if (is(0, "record")) record();
    else if (is(0, "play")) play();
    else say("no such line");
    *answer_bytes = length;
    return text;
}

bool exported_can(const char *line, size_t bytes) {
    split(line, bytes);
    size_t field = is(0, "recv") || is(0, "look") ? 3 : is(0, "put") ? 2 : 0;
    if (!field || field >= field_count) return true;
    size_t zeros = 0, count = fields[field].count;
    while (zeros < count && fields[field].at[zeros] == '0') zeros++;
    return count - zeros < 5 || (count - zeros == 5 && number(field) <= UINT16_MAX);
}

const char *exported_state(size_t *answer_bytes) {
    length = 0;
    whole_state();
    *answer_bytes = length;
    return text;
}

bool exported_is_started(void) { return is_started; }

bool exported_due(uint64_t *time) {
    struct kurgashel_due d = kurgashel_due(state, sizeof state);
    *time = d.time;
    return d.due;
}

const char *exported_wrong(void) { return wrong; }
size_t exported_entries(void) { return entries; }

void exported_reset(void) {
    memset(state, 0, sizeof state), memset(out, 0, sizeof out), memset(unicast, 0, sizeof unicast), memset(&browser, 0, sizeof browser);
    state[579] = state[588] = 7; // no names, both claims lost
    is_started = false;
    make_table(FIRST_ENTRIES, KURGASHEL_SLOT_BYTES * FIRST_ENTRIES);
    free(rich), free(ldh);
    rich = ldh = NULL, rich_bytes = ldh_bytes = 0;
    wrong = NULL;
}
