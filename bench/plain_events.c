/* Plays scenarios of banks in memory, plainly, as x917's player does, and writes the same bytes: the transcript, and the line of what
   came of it. The scenarios are those of scenarios.py without centres: keys that are sent, answered, ended and purged. A
   message's link or key is found, its code tested, then its count; each change of a party goes to its journal as a frame of format 2.
   The player does more: it notes what each code stands for and asks of each arrival whether it is forged, judges lines and grammar,
   keeps all texts, and writes and syncs through a disk.
   What such a scenario doesn't have isn't served: an event that wouldn't be accepted ends the program. Standard input has lines
   `scenario N`, each with the N bytes of a scenario behind it. plain_events [-d FOLDER]: the files of the parties go to that folder. */
#include <stdio.h>
#include <stdlib.h>
#include "plain_des.h"

enum { PARTIES = 64, LINKS = 64, RECORDS = 1024, SLOTS = 2 * RECORDS, WORDS = 8192, NAME = 16, TEXT = 256 };
enum { HEAD = 16, AREA_END = 8388616, ROOM = 4096 };
enum { SENDS = 1, TAKES };
enum { PENDING = 1, LIVE, HELD, CLOSING, ENDED };
enum { KEY_SENT = 3, ENDING };
enum { BEGIN = 1, PUT_LINK = 2, PUT_KEY = 4, DROP_ENDED = 5, PUT_EXCHANGE = 6, DROP_EXCHANGE = 7, SET_GENERATOR = 9 };

static const uint64_t EDC_KEY = 0x0123456789ABCDEFu, LAST_COUNT = 99999999999999u, MOMENT = 0;
static const char *const STATUSES[] = {"", " PENDING\n", " LIVE\n", " HELD\n", " CLOSING\n", " ENDED\n"};

/* Bytes that grow; behind the last there is room for what an event adds. */
struct bytes {
    uint8_t *at;
    size_t length, room;
};

/* An identity or a label; elsewhere its number, from 1, stands for it. */
struct word {
    uint64_t front, back;
    uint8_t bytes[NAME], length;
    int party;
};

struct name {
    int issuer, originator, label;
    uint64_t count;
};

struct link {
    int peer, label, side;
    uint64_t left, right, next;
};

struct record {
    int peer, status;
    struct name name;
    uint64_t value;
};

struct exchange {
    int peer, kind;
    struct name name;
    size_t length;
    uint8_t text[TEXT];
};

/* A slot has the place of a record, from 1, by its name. A journal stands without the closed gate that ends it. */
struct party {
    int own, link_count, record_count, exchange_count;
    uint64_t left, right, v;
    struct link links[LINKS];
    struct exchange exchanges[LINKS];
    struct record records[RECORDS];
    uint16_t slots[SLOTS];
    struct bytes journal;
};

/* What a text says, and how many of its bytes the code is of. */
struct message {
    const uint8_t *text;
    uint32_t class, code;
    int receiver, originator, label, has_name;
    struct name name;
    uint64_t key, count;
    size_t tested;
};

static struct schedule edc_schedule;
static struct word words[WORDS] = {{.party = -1}};
static uint16_t word_slots[2 * WORDS];
static int word_count, party_count;
static struct party parties[PARTIES];
static struct bytes written;
static size_t last_text;
static uint64_t events, texts;

static void must(int holds, const char *what)
{
    if (!holds) {
        fprintf(stderr, "event %llu: %s\n", (unsigned long long)events, what);
        exit(1);
    }
}

static uint8_t *end_with_room(struct bytes *bytes)
{
    if (bytes->length + ROOM > bytes->room) {
        bytes->room = 2 * bytes->room + 16 * ROOM;
        bytes->at = realloc(bytes->at, bytes->room);
        must(bytes->at != NULL, "no memory");
    }
    return bytes->at + bytes->length;
}

/* ---- reading: what is taken moves the place behind it, and behind the byte that ends it */

static int taken_word(const uint8_t **at)
{
    const uint8_t *begin = *at, *end = begin;
    while (*end > ' ' && *end != '.' && *end != ')')
        end++;
    *at = end + 1;
    size_t length = (size_t)(end - begin);
    must(length >= 1 && length <= NAME, "no name");
    uint64_t front, back;
    memcpy(&front, begin, 8);
    memcpy(&back, begin + 8, 8);
    front &= length < 8 ? ~(~(uint64_t)0 << 8 * length) : ~(uint64_t)0;
    back &= length <= 8 ? 0 : ~(uint64_t)0 >> (128 - 8 * length);
    unsigned slot = (unsigned)((front ^ back * 0x9E3779B97F4A7C15u) * 0x9E3779B97F4A7C15u >> 50);
    for (; word_slots[slot] != 0; slot = (slot + 1) % (2 * WORDS))
        if (words[word_slots[slot]].front == front && words[word_slots[slot]].back == back)
            return word_slots[slot];
    must(++word_count < WORDS, "too many names");
    words[word_count] = (struct word){.front = front, .back = back, .length = (uint8_t)length, .party = -1};
    memcpy(words[word_count].bytes, begin, length);
    word_slots[slot] = (uint16_t)word_count;
    return word_count;
}

static uint64_t taken_count(const uint8_t **at)
{
    uint64_t count = 0;
    while (**at >= '0' && **at <= '9')
        count = 10 * count + (*(*at)++ & 15);
    ++*at;
    return count;
}

static uint64_t taken_digits(const uint8_t **at, int digits)
{
    uint64_t word = 0;
    for (; digits > 0; digits--, ++*at)
        word = word << 4 | (uint64_t)((**at & 15) + (**at >> 6) * 9);
    return word;
}

static struct name taken_name(const uint8_t **at)
{
    struct name name;
    name.issuer = taken_word(at);
    name.originator = taken_word(at);
    name.label = taken_word(at);
    name.count = taken_count(at);
    return name;
}

#define TAG(A, B, C) ((uint32_t)(A) << 16 | (uint32_t)(B) << 8 | (uint32_t)(C))

static struct message read_message(const uint8_t *text)
{
    struct message message = {.text = text};
    for (const uint8_t *at = text + 4;;) {
        const uint8_t *begin = at;
        uint32_t tag = 0;
        while (*at != '/')
            tag = tag << 8 | *at++;
        at++;
        switch (tag) {
        case TAG('M', 'C', 'L'): message.class = TAG(at[0], at[1], at[2]); at += 4; break;
        case TAG('R', 'C', 'V'): message.receiver = taken_word(&at); break;
        case TAG('O', 'R', 'G'): message.originator = taken_word(&at); break;
        case TAG('I', 'D', 'K') << 8 | '2': message.label = taken_word(&at); break;
        case TAG(0, 'K', 'D'): message.key = taken_digits(&at, 16); at++; break;
        case TAG('C', 'T', 'P'): message.count = taken_count(&at); break;
        case TAG('I', 'D', 'D'): message.name = taken_name(&at); message.has_name = 1; break;
        case TAG('M', 'A', 'C'):
            message.code = (uint32_t)taken_digits(&at, 8);
            message.tested = (size_t)(begin - text);
            return message;
        default: must(0, "another tag");
        }
    }
}

/* ---- writing: what is put answers the place behind it */

static inline __attribute__((always_inline)) uint8_t *put(uint8_t *at, const char *text)
{
    size_t length = strlen(text);
    memcpy(at, text, length);
    return at + length;
}

/* A number in one to eight bytes; those behind it, up to eight, are written too. */
static inline uint8_t *put_number(uint8_t *at, uint64_t number, int bytes)
{
    uint64_t turned = __builtin_bswap64(number << (64 - 8 * bytes));
    memcpy(at, &turned, 8);
    return at + bytes;
}

static inline uint8_t *put_digits(uint8_t *at, uint64_t number, int digits)
{
    for (int i = digits - 1; i >= 0; i--)
        *at++ = (uint8_t)"0123456789ABCDEF"[number >> 4 * i & 15];
    return at;
}

static uint8_t *put_decimal(uint8_t *at, uint64_t number)
{
    uint8_t digits[20];
    int first = 20;
    do
        digits[--first] = (uint8_t)('0' + number % 10);
    while ((number /= 10) != 0);
    while (first < 20)
        *at++ = digits[first++];
    return at;
}

static inline uint8_t *put_word(uint8_t *at, int word, const char *behind)
{
    memcpy(at, words[word].bytes, NAME);
    return put(at + words[word].length, behind);
}

static uint8_t *put_name(uint8_t *at, const struct name *name)
{
    return put_decimal(put_word(put_word(put_word(at, name->issuer, "."), name->originator, "."), name->label, "."), name->count);
}

static void end_line(uint8_t *at, const char *behind)
{
    written.length = (size_t)(put(at, behind) - written.at);
}

/* The line of a text is begun, with the fields that each class has. */
static uint8_t *begin_text(const char *class, int receiver, int originator)
{
    uint8_t *at = put(put_decimal(put(written.at + written.length, "T"), ++texts), " ");
    last_text = (size_t)(at - written.at);
    return put_word(put(put_word(put(at, class), receiver, ""), " ORG/"), originator, " ");
}

static void end_text(uint8_t *at, const struct schedule *schedule)
{
    const uint8_t *text = written.at + last_text;
    end_line(put_digits(put(at, "MAC/"), code_of(schedule, text, (size_t)(at - text)), 8), ")\n");
}

static uint8_t *begin_frame(struct party *party, int edits)
{
    return put_number(put_number(end_with_room(&party->journal) + 5, 2, 1), (uint64_t)edits, 2);
}

static void end_frame(struct party *party, uint8_t *at)
{
    uint8_t *gate = party->journal.at + party->journal.length, *body = gate + 5;
    at = put_number(at, code_of(&edc_schedule, body, (size_t)(at - body)), 4);
    must(at + 1 - party->journal.at <= AREA_END, "no room in the journal");
    uint32_t length = __builtin_bswap32((uint32_t)(at - body));
    *gate = 1;
    memcpy(gate + 1, &length, 4);
    party->journal.length = (size_t)(at - party->journal.at);
}

static inline uint8_t *put_short(uint8_t *at, int word)
{
    *at = words[word].length;
    return put_word(at + 1, word, "");
}

static uint8_t *put_short_name(uint8_t *at, const struct name *name)
{
    return put_number(put_short(put_short(put_short(at, name->issuer), name->originator), name->label), name->count, 8);
}

static uint8_t *put_link(uint8_t *at, const struct link *link)
{
    at = put_short(put_short(put_number(at, PUT_LINK, 1), link->peer), link->label);
    at = put_number(put_number(put_number(at, (uint64_t)link->side, 1), link->left, 8), link->right, 8);
    return put_number(put_number(at, link->next, 8), 1, 1);
}

static uint8_t *put_key(uint8_t *at, const struct record *record)
{
    at = put_short_name(put_short(put_number(at, PUT_KEY, 1), record->peer), &record->name);
    return put_number(put_number(at, record->value, 8), (uint64_t)record->status, 1);
}

/* ---- parties */

static struct party *party_of(int word)
{
    must(words[word].party >= 0, "no such party");
    return &parties[words[word].party];
}

static struct link *link_of(struct party *party, int peer, int label, int side)
{
    struct link *link = party->links, *behind = link + party->link_count;
    while (link < behind && (link->peer != peer || link->side != side || (label != 0 && link->label != label)))
        link++;
    must(link < behind, "no such link");
    return link;
}

/* The exchange with a peer, or where a new one would stand. */
static struct exchange *exchange_of(struct party *party, int peer, int stands)
{
    struct exchange *exchange = party->exchanges, *behind = exchange + party->exchange_count;
    while (exchange < behind && exchange->peer != peer)
        exchange++;
    must((exchange < behind) == stands, "an exchange stands or not");
    return exchange;
}

static int same_name(const struct name *one, const struct name *other)
{
    return one->count == other->count && one->label == other->label && one->originator == other->originator && one->issuer == other->issuer;
}

/* The slot of a record, or the empty one where it would be. */
static uint16_t *slot_of(struct party *party, int peer, const struct name *name)
{
    unsigned slot = (unsigned)(name->count + 37u * (unsigned)name->originator + 101u * (unsigned)name->label) % SLOTS;
    for (; party->slots[slot] != 0; slot = (slot + 1) % SLOTS) {
        const struct record *record = &party->records[party->slots[slot] - 1];
        if (record->peer == peer && same_name(&record->name, name))
            break;
    }
    return &party->slots[slot];
}

static struct record *record_of(struct party *party, int peer, const struct name *name)
{
    uint16_t place = *slot_of(party, peer, name);
    must(place != 0, "no such key");
    return &party->records[place - 1];
}

static struct record *new_record(struct party *party, struct record record)
{
    uint16_t *slot = slot_of(party, record.peer, &record.name);
    must(*slot == 0 && party->record_count < RECORDS, "no room for a key");
    *slot = (uint16_t)++party->record_count;
    party->records[*slot - 1] = record;
    return &party->records[*slot - 1];
}

/* An exchange about the last text begins, and is written. */
static uint8_t *put_exchange(uint8_t *at, struct party *party, int peer, int kind, const struct name *name)
{
    struct exchange *exchange = &party->exchanges[party->exchange_count++];
    exchange->peer = peer;
    exchange->kind = kind;
    exchange->name = *name;
    exchange->length = written.length - last_text - 1;
    memcpy(exchange->text, written.at + last_text, exchange->length);
    at = put_number(put_short(put_number(at, PUT_EXCHANGE, 1), peer), (uint64_t)kind, 1);
    at = put_short_name(at, name);
    if (kind == KEY_SENT) /* without a centre, and without a new key-encrypting key */
        at = put_number(put_short(put_number(at, 1, 1), name->label), 0, 1);
    at = put_number(at, exchange->length, 2);
    memcpy(at, exchange->text, exchange->length);
    return at + exchange->length;
}

/* ---- events */

static void test_code(const struct message *message, uint64_t key, struct schedule *schedule)
{
    make_schedule(key, schedule);
    must(code_of(schedule, message->text, message->tested) == message->code, "another code");
}

/* A key is drawn and sent. */
static void start(struct party *party, int peer)
{
    struct schedule schedule;
    exchange_of(party, peer, 0);
    struct link *link = link_of(party, peer, 0, SENDS);
    must(link->next <= LAST_COUNT, "no count is left");
    struct name name = {party->own, party->own, link->label, link->next};
    uint64_t key = drawn(party->left, party->right, MOMENT, &party->v);
    must(key != 0, "weak draws");
    struct record *record = new_record(party, (struct record){peer, PENDING, name, key});
    uint8_t *at = put_word(put(begin_text("CSM(MCL/KSM RCV/", peer, party->own), "IDK2/"), link->label, " KD/");
    at = put_digits(at, wrapped(link->left, link->right, link->next, key), 16);
    at = put(put_decimal(put(at, " CTP/"), link->next++), " ");
    make_schedule(key, &schedule);
    end_text(at, &schedule);
    at = put_number(put_number(begin_frame(party, 4), SET_GENERATOR, 1), party->v, 8);
    end_frame(party, put_exchange(put_key(put_link(at, link), record), party, peer, KEY_SENT, &name));
}

/* A key comes, is held, and answered. */
static void take_key(struct party *party, const struct message *message)
{
    struct schedule schedule;
    struct link *link = link_of(party, message->originator, message->label, TAKES);
    struct name name = {message->originator, message->originator, link->label, message->count};
    uint64_t key = unwrapped(link->left, link->right, message->count, message->key);
    test_code(message, key, &schedule);
    must(message->count >= link->next && message->count <= LAST_COUNT, "another count");
    link->next = message->count + 1;
    struct record *record = new_record(party, (struct record){message->originator, HELD, name, key});
    end_frame(party, put_key(put_link(begin_frame(party, 2), link), record));
    end_text(begin_text("CSM(MCL/RSM RCV/", message->originator, party->own), &schedule);
}

/* A key that was sent, or the end of one, is answered. */
static void take_answer(struct party *party, const struct message *message)
{
    struct schedule schedule;
    struct exchange *exchange = exchange_of(party, message->originator, 1);
    must(exchange->kind == (message->has_name ? ENDING : KEY_SENT), "another answer waits");
    must(!message->has_name || same_name(&exchange->name, &message->name), "another key's answer");
    struct record *record = record_of(party, message->originator, &exchange->name);
    test_code(message, record->value, &schedule);
    record->status = message->has_name ? ENDED : LIVE;
    uint8_t *at = put_number(put_key(begin_frame(party, 2), record), DROP_EXCHANGE, 1);
    end_frame(party, put_short(at, message->originator));
    memmove(exchange, exchange + 1, (size_t)(party->exchanges + --party->exchange_count - exchange) * sizeof *exchange);
}

/* A key is to end. */
static void end(struct party *party, int peer, const struct name *name)
{
    struct schedule schedule;
    exchange_of(party, peer, 0);
    struct record *record = record_of(party, peer, name);
    must(record->status != PENDING && record->status != ENDED, "no key to end");
    record->status = CLOSING;
    uint8_t *at = put(put_name(put(begin_text("CSM(MCL/DSM RCV/", peer, party->own), "IDD/"), name), " ");
    make_schedule(record->value, &schedule);
    end_text(at, &schedule);
    end_frame(party, put_exchange(put_key(begin_frame(party, 2), record), party, peer, ENDING, name));
}

/* A key ends, and that is answered. */
static void take_end(struct party *party, const struct message *message)
{
    struct schedule schedule;
    struct record *record = record_of(party, message->originator, &message->name);
    test_code(message, record->value, &schedule);
    exchange_of(party, message->originator, 0);
    must(record->status != ENDED, "an ended key");
    record->status = ENDED;
    end_frame(party, put_key(begin_frame(party, 1), record));
    uint8_t *at = put(begin_text("CSM(MCL/RSM RCV/", message->originator, party->own), "IDD/");
    end_text(put(put_name(at, &record->name), " "), &schedule);
}

/* The last text arrives at the party that it names. */
static void arrive(void)
{
    must(texts > 0, "no text");
    struct message message = read_message(written.at + last_text);
    struct party *party = party_of(message.receiver);
    must(message.originator != party->own, "its own message");
    switch (message.class) {
    case TAG('K', 'S', 'M'): take_key(party, &message); break;
    case TAG('R', 'S', 'M'): take_answer(party, &message); break;
    case TAG('D', 'S', 'M'): take_end(party, &message); break;
    default: must(0, "another class");
    }
}

static void purge(struct party *party)
{
    int count = party->record_count;
    memset(party->slots, 0, sizeof party->slots);
    party->record_count = 0;
    for (int i = 0; i < count; i++)
        if (party->records[i].status != ENDED)
            new_record(party, party->records[i]);
    must(party->record_count < count, "no key has ended");
    end_frame(party, put_number(begin_frame(party, 1), DROP_ENDED, 1));
}

/* ---- scenarios */

static void set_up_party(const uint8_t *at)
{
    int own = taken_word(&at);
    must(party_count < PARTIES && words[own].party < 0 && memcmp(at, "BANK ", 5) == 0, "no new bank");
    struct party *party = &parties[words[own].party = party_count++];
    at += 5;
    party->own = own;
    party->link_count = party->record_count = party->exchange_count = 0;
    party->journal = (struct bytes){0};
    memset(party->slots, 0, sizeof party->slots);
    party->left = taken_digits(&at, 16);
    party->right = taken_digits(&at, 16);
    at++;
    party->v = taken_digits(&at, 16);
    memcpy(end_with_room(&party->journal), "\1\0X917-KEYSTORE1", HEAD);
    party->journal.length = HEAD;
    uint8_t *to = put_number(put_short(put_number(begin_frame(party, 1), BEGIN, 1), own), 1, 1);
    end_frame(party, put_number(put_number(put_number(to, party->left, 8), party->right, 8), party->v, 8));
}

static void set_up_link(const uint8_t *at)
{
    int ends[2];
    ends[0] = taken_word(&at);
    ends[1] = taken_word(&at);
    struct link link = {.label = taken_word(&at), .next = 1};
    link.left = with_odd_parity(taken_digits(&at, 16));
    link.right = with_odd_parity(taken_digits(&at, 16));
    for (int i = 0; i < 2; i++) {
        struct party *party = party_of(ends[i]);
        must(party->link_count < LINKS, "too many links");
        link.peer = ends[1 - i];
        link.side = i == 0 ? SENDS : TAKES;
        party->links[party->link_count++] = link;
        end_frame(party, put_link(begin_frame(party, 1), &link));
    }
}

static inline int begins(const uint8_t **at, const char *word)
{
    int is_there = memcmp(*at, word, strlen(word)) == 0;
    *at += is_there ? strlen(word) : 0;
    return is_there;
}

static void play_event(const uint8_t *at)
{
    end_line(put_decimal(put(end_with_room(&written), "E"), ++events), " DONE\n");
    if (begins(&at, "RECENT 1\n")) {
        arrive();
    } else if (begins(&at, "START ")) {
        struct party *party = party_of(taken_word(&at));
        start(party, taken_word(&at));
    } else if (begins(&at, "END ")) {
        struct party *party = party_of(taken_word(&at));
        int peer = taken_word(&at);
        struct name name = taken_name(&at);
        end(party, peer, &name);
    } else {
        must(begins(&at, "PURGE "), "another line");
        purge(party_of(taken_word(&at)));
    }
}

/* What a party shows at the end; its keys are counted by status. */
static void show(const struct party *party, unsigned long long *counts)
{
    end_line(put_word(put(end_with_room(&written), "PARTY "), party->own, " BANK\n"), "");
    for (const struct link *link = party->links; link < party->links + party->link_count; link++) {
        uint8_t *at = put_word(put_word(put(end_with_room(&written), "LINK "), link->peer, " "), link->label, "");
        end_line(put_decimal(put(at, link->side == SENDS ? " OUT " : " IN "), link->next), " READY\n");
    }
    for (const struct record *record = party->records; record < party->records + party->record_count; record++) {
        uint8_t *at = put_word(put(end_with_room(&written), "KEY "), record->peer, " ");
        end_line(put_name(at, &record->name), STATUSES[record->status]);
        counts[record->status]++;
    }
    for (const struct exchange *exchange = party->exchanges; exchange < party->exchanges + party->exchange_count; exchange++) {
        uint8_t *at = put_word(put(end_with_room(&written), "EXCHANGE "), exchange->peer, "");
        end_line(put_name(put(at, exchange->kind == KEY_SENT ? " KEYSENT " : " ENDING "), &exchange->name), "\n");
    }
}

static void keep(const struct party *party, const char *folder)
{
    char path[4096];
    snprintf(path, sizeof path, "%s/%.*s.x917", folder, words[party->own].length, (const char *)words[party->own].bytes);
    FILE *file = fopen(path, "wb");
    must(file != NULL && fwrite(party->journal.at, 1, party->journal.length, file) == party->journal.length, path);
    must(fputc(0, file) == 0 && fclose(file) == 0, path);
}

/* A scenario is played from nothing. */
static void play(const uint8_t *at, const uint8_t *behind, const char *folder)
{
    unsigned long long counts[ENDED + 1] = {0};
    events = texts = 0;
    for (; at < behind; at = (const uint8_t *)memchr(at, '\n', (size_t)(behind - at)) + 1) {
        const uint8_t *rest = at;
        if (begins(&rest, "PARTY "))
            set_up_party(rest);
        else if (begins(&rest, "LINK "))
            set_up_link(rest);
        else
            play_event(rest);
    }
    for (int i = 0; i < party_count; i++) {
        show(&parties[i], counts);
        if (folder != NULL)
            keep(&parties[i], folder);
        free(parties[i].journal.at);
        words[parties[i].own].party = -1;
    }
    party_count = 0;
    fwrite(written.at, 1, written.length, stdout);
    printf("done %llu %llu 0 0 0 %llu %llu %llu %llu %llu\n", (unsigned long long)events, (unsigned long long)events,
        (unsigned long long)texts, counts[LIVE], counts[HELD], counts[CLOSING], counts[ENDED]);
    must(!ferror(stdout), "standard output");
    free(written.at);
    written = (struct bytes){0};
}

int main(int count, char **arguments)
{
    const char *folder = count == 3 && strcmp(arguments[1], "-d") == 0 ? arguments[2] : NULL;
    struct bytes input = {0};
    size_t got;
    make_rows();
    make_schedule(EDC_KEY, &edc_schedule);
    do {
        uint8_t *to = end_with_room(&input);
        got = fread(to, 1, input.room - input.length - 2 * NAME, stdin);
        input.length += got;
    } while (got > 0);
    memset(input.at + input.length, 0, 2 * NAME);
    const uint8_t *at = input.at, *behind = at + input.length;
    while (at < behind) {
        must(begins(&at, "scenario "), "no scenario");
        size_t length = taken_count(&at);
        must(length <= (size_t)(behind - at) && (length == 0 || at[length - 1] == '\n'), "no whole lines");
        play(at, at + length, folder);
        at += length;
    }
    free(input.at);
    return 0;
}
