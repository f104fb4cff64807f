/* A host of the library, in two ways.
 *
 * A world in one image: one server, a write of client 1 and a read of client 2,
 * which ends in one exchange; each message delivered and each answer taken.
 * Prints each completed operation: client, W or R, count, writer, value.
 *
 * Single machines: four servers, one of them faulty, a client that reads and an
 * administrator that ends the view. The host moves messages and hands each
 * answer to zw_answer; it counts nothing. The faulty server answers twice.
 * Prints what each answer did. */
#include "zemawulo.h"

#include <stdio.h>
#include <string.h>

enum { WRITE = 1, READ = 2, DELIVER = 3, TAKE = 4 };

static uint8_t image[ZW_IMAGE];

static uint32_t number(const uint8_t *at)
{
    return at[0] | (uint32_t)at[1] << 8 | (uint32_t)at[2] << 16 | (uint32_t)at[3] << 24;
}

/* The last operation of a client, from its record in the image. */
static void print_operation(unsigned client)
{
    const uint8_t *record = image + 944 + ZW_CLIENT * (client - 1);
    printf("%u %c %u %u %u\n", client, record[1] == 1 ? 'W' : 'R', number(record + 4),
           record[8], number(record + 12));
}

/* One step: its kind, a client or server, a message's number, a value. */
static int step(uint8_t kind, uint8_t who, uint16_t message, uint32_t value)
{
    uint8_t bytes[ZW_STEP] = {kind, who, 0, 0, (uint8_t)message, (uint8_t)(message >> 8)};
    uint64_t answer;

    for (int i = 0; i < 4; i++)
        bytes[8 + i] = (uint8_t)(value >> 8 * i);
    answer = zw_step(image, sizeof image, bytes, sizeof bytes);
    if (zw_refusal_of(answer) != ZW_DONE) {
        fprintf(stderr, "refused: %u\n", zw_refusal_of(answer));
        return 0;
    }
    if (zw_result_of(answer) != 0)
        print_operation((unsigned)zw_result_of(answer));
    return 1;
}

/* A request reaches the server, and its answer, the next message, is taken. */
static int served(uint16_t request)
{
    return step(DELIVER, 1, request, 0) && step(TAKE, 0, request + 1, 0);
}

static int world_in_an_image(void)
{
    if (zw_fresh(image, sizeof image, 1, 0, 0) != ZW_DONE)
        return 0;
    if (!step(WRITE, 1, 0, 7) || !served(1) || !served(3))
        return 0;
    if (!step(READ, 2, 0, 0) || !served(5))
        return 0;
    return zw_result_of(zw_premise(image, sizeof image)) == 1;
}

/* Single machines: view 1 has servers 1 to 4 with f 1, so that three close a
 * phase. Servers 1 to 3 hold what client 1 wrote, and server 4 does not yet. */
enum { SERVERS = 4, FAULTY = 1, FALSE_ANSWER = 6, NEW_VIEW = 7 };

static uint8_t servers[SERVERS][ZW_SERVER];
static const uint8_t views[2][ZW_VIEW] = {{0x0f, 0, 0, 0, 1}, {0x0f, 0, 0, 0, 1}};
static const uint8_t written[ZW_ENTRY] = {1, 0, 0, 0, 1, 0, 0, 0, 7};
static uint8_t phase[ZW_PHASE], entry[ZW_ENTRY];

/* Numbers of requests given so far: each request has one of its own. */
static uint16_t used;

static int refused(const char *who, uint64_t answer)
{
    if (zw_refusal_of(answer) != ZW_DONE)
        printf("%s: refused %u\n", who, zw_refusal_of(answer));
    return zw_refusal_of(answer) != ZW_DONE;
}

/* A request reaches server s, which is a member of the view that END names; READ
 * and WRITE name none. Its answer, if there is one, is made of its record: the
 * view and the entry. The faulty one shows an entry that was written, with its
 * key of view 1. */
static int server_answers(unsigned s, const uint8_t *request, uint16_t asked, uint8_t *answer)
{
    uint8_t *record = servers[s - 1];
    int lies = s == FAULTY;
    uint8_t call[ZW_SERVER_CALL] = {DELIVER, request[0] == ZW_KIND_END};
    uint64_t told;

    if (lies)
        memcpy(call, (uint8_t[]){FALSE_ANSWER, 1, 1}, 3);
    memcpy(call + 4, request, ZW_MESSAGE);
    told = zw_server(record, ZW_SERVER, call, sizeof call);
    if (refused("server", told) || (!lies && zw_result_of(told) == 0))
        return 0;
    memset(answer, 0, ZW_MESSAGE);
    answer[0] = ZW_KIND_ANSWER;
    answer[1] = (uint8_t)s;
    answer[2] = lies ? 1 : record[0];
    answer[4] = (uint8_t)asked;
    answer[5] = (uint8_t)(asked >> 8);
    memcpy(answer + 8, record + 8, ZW_ENTRY);
    return 1;
}

/* Hands an answer to the open phase, with the view that it is tagged with, and
 * prints what it did. */
static uint64_t take_answer(const uint8_t *answer)
{
    static const char *const words[] = {"open", "closed", "closed at once"};
    uint8_t call[ZW_ANSWER_CALL];
    uint64_t told;

    memcpy(call, answer, ZW_MESSAGE);
    memcpy(call + ZW_MESSAGE, views[answer[2] - 1], ZW_VIEW);
    told = zw_answer(phase, sizeof phase, call, sizeof call, entry, sizeof entry);
    if (!refused("answer", told))
        printf("answer of %u: %s\n", answer[1], words[zw_result_of(told)]);
    return told;
}

/* Sends a request to servers, one after another, until its phase closes. Tells
 * whether a read may end; -1 if the phase stays open. */
static int exchange(const uint8_t *request, uint16_t sent, const unsigned *to, size_t count)
{
    uint8_t answer[ZW_MESSAGE];

    if (refused("open", zw_open(phase, sizeof phase, request[0], request[2], sent)))
        return -1;
    for (size_t i = 0; i < count; i++) {
        uint64_t told;

        if (!server_answers(to[i], request, sent, answer))
            continue;
        told = take_answer(answer);
        if (zw_refusal_of(told) == ZW_DONE && zw_result_of(told) != ZW_OPEN)
            return (int)zw_at_once_of(told);
    }
    return -1;
}

/* What is asked of client 2: rule 2 begins a read, rule 4 closes a phase. */
static int ask_client(uint8_t *client, uint8_t rule, uint16_t sends, int at_once)
{
    uint8_t call[ZW_CLIENT_CALL] = {rule, rule == TAKE ? 2 : 0, (uint8_t)sends, (uint8_t)(sends >> 8)};
    uint64_t told;

    if (rule == TAKE)
        memcpy(call + 4, entry, ZW_ENTRY);
    call[16] = (uint8_t)at_once;
    told = zw_client(client, ZW_CLIENT, call, sizeof call);
    return refused("client", told) ? -1 : (int)zw_result_of(told);
}

/* Client 2 reads. The number for a WRITE is used only if one is sent. The faulty
 * server answers twice, and counts once. */
static int client_reads(const unsigned *to, size_t count)
{
    uint8_t client[ZW_CLIENT] = {0};
    uint8_t request[ZW_MESSAGE] = {ZW_KIND_READ, 2};
    int at_once, complete;

    if (ask_client(client, READ, ++used, 0) != 0)
        return 0;
    at_once = exchange(request, used, to, count);
    if (at_once < 0)
        return 0;
    complete = ask_client(client, TAKE, used + 1, at_once);
    if (complete == 0) {
        request[0] = ZW_KIND_WRITE;
        memcpy(request + 8, client + 4, ZW_ENTRY);
        if (exchange(request, ++used, to, count) < 0)
            return 0;
        complete = ask_client(client, TAKE, used + 1, 0);
    }
    printf("2 R %u %u %u\n", number(client + 4), client[8], number(client + 12));
    return complete == 1;
}

/* The administrator calls view 2 with END of view 1, and its answers close it. */
static int administrator_ends(const unsigned *to, size_t count)
{
    uint8_t administrator[ZW_ADMINISTRATOR] = {1};
    uint16_t ends = ++used;
    uint8_t calls[ZW_ADMINISTRATOR_CALL] = {NEW_VIEW, 0, (uint8_t)ends, (uint8_t)(ends >> 8)};
    const uint8_t closes[ZW_ADMINISTRATOR_CALL] = {TAKE};
    const uint8_t end[ZW_MESSAGE] = {ZW_KIND_END, 0, 1};

    memcpy(calls + 4, views[1], ZW_VIEW);
    if (refused("administrator", zw_administrator(administrator, sizeof administrator, calls, sizeof calls)))
        return 0;
    if (exchange(end, ends, to, count) < 0)
        return 0;
    if (refused("administrator", zw_administrator(administrator, sizeof administrator, closes, sizeof closes)))
        return 0;
    printf("view %u starts with %u %u %u\n", administrator[0], number(entry), entry[4], number(entry + 8));
    return 1;
}

static int single_machines(void)
{
    static const unsigned twice[] = {FAULTY, FAULTY, 2, 3, 4};
    static const unsigned differ[] = {FAULTY, FAULTY, 4, 3, 2};
    uint8_t late[ZW_MESSAGE];
    const uint8_t read[ZW_MESSAGE] = {ZW_KIND_READ, 2};

    for (int s = 0; s < SERVERS; s++) {
        servers[s][0] = 1;
        servers[s][1] = s + 1 == FAULTY;
        servers[s][4] = 1;
        if (s + 1 < SERVERS)
            memcpy(servers[s] + 8, written, ZW_ENTRY);
    }
    /* READ 1: all three show one entry, and server 4's answer comes late. READ 2 and
     * WRITE 3: server 4, which is behind, is one of the three. END is 4. */
    if (!client_reads(twice, 5) || !server_answers(4, read, 1, late))
        return 0;
    take_answer(late);
    return client_reads(differ, 5) && administrator_ends(twice, 5);
}

int main(void)
{
    return world_in_an_image() && single_machines() ? 0 : 1;
}
