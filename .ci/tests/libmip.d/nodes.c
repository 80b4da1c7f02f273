/* Does the calls of nodes.awk, a line each on standard input, at correspondents and home agents by their handles, and writes what they answer in the words of a trace.
       nodes            each packet in a block of its exact size, each answer first asked for with too little room
       nodes --fail     each allocation of the library fails in turn, malloc's and realloc's: the call ends with MIP_MEMORY, and is made once more
       nodes --threads  the same calls in four threads at a time, each with handles of its own, whose answers have to be the same
       nodes --closed   what a handle answers that is closed, open already, asked too early, or given what is out of range */
#include "digits.h"
#include "failing.h"

#include <pthread.h>

struct node {
    char name[16];
    bool is_agent;
    struct mip_correspondent_handle handle;
    struct mip_agent_handle agent;
};
struct run {
    struct node nodes[256];
    size_t count;
    FILE *out;
};

static struct node *node_named(struct run *run, const char *name)
{
    for (size_t i = 0; i < run->count; i++)
        if (strcmp(run->nodes[i].name, name) == 0)
            return &run->nodes[i];
    if (run->count == sizeof run->nodes / sizeof *run->nodes)
        FAIL("too many nodes");
    struct node *it = &run->nodes[run->count++];
    memset(it, 0, sizeof *it);
    snprintf(it->name, sizeof it->name, "%s", name);
    return it;
}

static void put_answer(struct run *run, const struct node *it, const struct mip_answer_fields *a, const uint8_t *bytes, size_t size)
{
    FILE *out = run->out;
    switch (a->kind) {
    case MIP_ANSWER_SEND:
        fprintf(out, "sent %s %c ", it->name, a->is_shielded ? '+' : '-');
        put_digits(out, bytes, size);
        break;
    case MIP_ANSWER_ACCEPTED:
        fprintf(out, "accepted %s %llu ", it->name, (unsigned long long)a->number);
        put_digits(out, a->home, 16);
        fprintf(out, " %u ", a->binding);
        put_digits(out, a->careof, 16);
        fprintf(out, " %u %llu %u ", a->sequence, (unsigned long long)a->end, a->home_index);
        if (a->has_careof_index)
            fprintf(out, "%u", a->careof_index);
        else
            fputc('-', out);
        break;
    case MIP_ANSWER_DENIED: fprintf(out, "denied %s %llu %u", it->name, (unsigned long long)a->number, a->status); break;
    case MIP_ANSWER_DROPPED: fprintf(out, "dropped %s %llu %s", it->name, (unsigned long long)a->number, mip_why_name(a->why)); break;
    case MIP_ANSWER_UP:
        fprintf(out, "up %s %llu ", it->name, (unsigned long long)a->number);
        put_digits(out, a->source, 16);
        fputc(' ', out);
        put_digits(out, a->destination, 16);
        fprintf(out, " %u ", a->proto);
        put_digits(out, bytes, size);
        break;
    case MIP_ANSWER_HOME:
        fprintf(out, "home %s ", it->name);
        put_digits(out, a->home, 16);
        fputc(' ', out);
        put_digits(out, a->careof, 16);
        fprintf(out, " %u %llu", a->sequence, (unsigned long long)a->end);
        break;
    case MIP_ANSWER_CLAIMED:
    case MIP_ANSWER_RELEASED:
        fprintf(out, "%s %s ", mip_answer_kind_name(a->kind), it->name);
        put_digits(out, a->home, 16);
        break;
    case MIP_ANSWER_IDLE: return;
    default: FAIL("an answer of kind %u", a->kind);
    }
    fputc('\n', out);
}

static uint32_t next_answer(struct node *it, struct mip_answer_fields *fields, uint8_t *bytes, size_t room, size_t *size)
{
    return it->is_agent ? mip_agent_next(&it->agent, fields, bytes, room, size) : mip_correspondent_next(&it->handle, fields, bytes, room, size);
}

static void put_answers(struct run *run, struct node *it)
{
    for (;;) {
        struct mip_answer_fields fields, again;
        memset(&fields, 0, sizeof fields);
        memset(&again, 0, sizeof again);
        uint8_t none = 0xa5;
        size_t size = 0, needed = 0;
        uint32_t status = next_answer(it, &fields, &none, 0, &size);
        if (status == MIP_NONE)
            return;
        uint8_t *bytes = own(size);
        if (status == MIP_NO_ROOM) {
            status = next_answer(it, &again, bytes, size - 1, &needed);
            if (status != MIP_NO_ROOM || needed != size)
                FAIL("a byte too few is not told of an answer");
            status = next_answer(it, &again, bytes, size, &needed);
            if (needed != size || again.kind != fields.kind || again.number != fields.number)
                FAIL("an answer is another one the second time");
        }
        if (status != MIP_OK)
            FAIL("an answer has the status %u", status);
        put_answer(run, it, &fields, bytes, size);
        free(bytes);
    }
}

static void put_rows(struct run *run, struct node *it, uint64_t now)
{
    struct mip_row_fields row;
    for (uint32_t place = 0;; place++) {
        memset(&row, 0, sizeof row);
        uint32_t status = mip_correspondent_row(&it->handle, now, place, &row);
        if (status == MIP_NONE)
            return;
        if (status != MIP_OK)
            FAIL("a row has the status %u", status);
        fprintf(run->out, "row %s ", it->name);
        put_digits(run->out, row.home, 16);
        fprintf(run->out, " %u ", row.binding);
        put_digits(run->out, row.careof, 16);
        fprintf(run->out, " %u %llu %llu\n", row.sequence, (unsigned long long)row.end, (unsigned long long)row.kept_until);
    }
}

/* The registrations of an agent, each of which is the one that is told for its home. */
static void put_registrations(struct run *run, struct node *it, uint64_t now)
{
    struct mip_registration_fields row;
    for (uint32_t place = 0;; place++) {
        memset(&row, 0, sizeof row);
        uint32_t status = mip_agent_row(&it->agent, now, place, &row);
        if (status == MIP_NONE)
            return;
        uint8_t careof[16] = {0};
        if (status != MIP_OK || mip_agent_careof(&it->agent, now, row.home, careof) != MIP_OK || memcmp(careof, row.careof, 16) != 0)
            FAIL("a registration has the status %u, or is told otherwise", status);
        fprintf(run->out, "row %s ", it->name);
        put_digits(run->out, row.home, 16);
        fputc(' ', run->out);
        put_digits(run->out, row.careof, 16);
        fprintf(run->out, " %u %llu\n", row.sequence, (unsigned long long)row.end);
    }
}

/* A packet is handed to an agent. */
static uint32_t handed(struct node *it, uint64_t now, char *const words[])
{
    size_t shielded, held, size;
    uint8_t *ends = bytes_of(words[4], &shielded), *others = bytes_of(words[5], &held), *packet = bytes_of(words[6], &size);
    struct mip_shield_fields shield = {.is_shielded = shielded == 32};
    if (shielded == 32) {
        memcpy(shield.from, ends, 16);
        memcpy(shield.to, ends + 16, 16);
    }
    uint32_t status = mip_agent_take(&it->agent, now, strtoull(words[3], NULL, 10), &shield, others, held, packet, size);
    free(ends);
    free(others);
    free(packet);
    return status;
}

/* The call of a line at an agent; its status. */
static uint32_t agent_called(struct node *it, char *const words[])
{
    uint64_t now = strtoull(words[2], NULL, 10), due = 0;
    if (strcmp(words[0], "hand") == 0)
        return handed(it, now, words);
    if (strcmp(words[0], "tick") == 0) {
        if (mip_agent_due(&it->agent, &due) != MIP_OK || due > now)
            FAIL("nothing is due at an agent that gives a home up");
        return mip_agent_tick(&it->agent, now);
    }
    if (strcmp(words[0], "plan") == 0)
        return mip_agent_plan(&it->agent, now, (uint32_t)strtoul(words[3], NULL, 10), (uint32_t)strtoul(words[4], NULL, 10));
    size_t size, more;
    bool begins = strcmp(words[0], "agent") == 0;
    uint8_t *first = bytes_of(words[begins ? 2 : 3], &size), *serves = bytes_of(begins ? words[5] : "-", &more);
    uint32_t status = begins ? mip_agent_open(&it->agent, first, (uint16_t)atoi(words[3]), (uint32_t)atol(words[4]), serves, more)
                             : mip_agent_heard(&it->agent, now, first, (uint16_t)atoi(words[4]), (uint16_t)atoi(words[5]));
    free(first);
    free(serves);
    return status;
}

/* The call of a line; its status. */
static uint32_t called(struct node *it, char *const words[])
{
    if (it->is_agent)
        return agent_called(it, words);
    size_t size, more;
    uint8_t *first = bytes_of(words[strcmp(words[0], "take") == 0 ? 4 : strcmp(words[0], "open") == 0 ? 2 : 3], &size), *second;
    uint64_t now = strtoull(words[2], NULL, 10);
    uint32_t status;
    if (strcmp(words[0], "open") == 0) {
        second = bytes_of(words[3], &more);
        status = mip_correspondent_open(&it->handle, first, second, (uint8_t)atoi(words[4]), (uint32_t)atol(words[5]), (uint32_t)atol(words[6]), (uint8_t)atoi(words[7]));
    } else if (strcmp(words[0], "take") == 0) {
        second = own(0);
        status = mip_correspondent_take(&it->handle, now, strtoull(words[3], NULL, 10), first, size);
    } else if (strcmp(words[0], "send") == 0) {
        second = bytes_of(words[5], &more);
        status = mip_correspondent_send(&it->handle, now, first, (uint8_t)atoi(words[4]), second, more);
    } else {
        second = own(0);
        status = mip_correspondent_refresh(&it->handle, now, first);
    }
    free(first);
    free(second);
    return status;
}

static void do_line(struct run *run, char *line)
{
    char *words[9] = {0}, *rest = NULL;
    int count = 0;
    for (char *word = strtok_r(line, " \n", &rest); word && count < 9; word = strtok_r(NULL, " \n", &rest))
        words[count++] = word;
    if (count < 2)
        FAIL("a line has too few words");
    struct node *it = node_named(run, words[1]);
    if (strcmp(words[0], "close") == 0) {
        if ((it->is_agent ? mip_agent_close(&it->agent) : mip_correspondent_close(&it->handle)) != MIP_OK)
            FAIL("a handle cannot be closed");
        return;
    }
    if (strcmp(words[0], "rows") == 0) {
        (it->is_agent ? put_registrations : put_rows)(run, it, strtoull(words[2], NULL, 10));
        return;
    }
    if (strcmp(words[0], "agent") == 0)
        it->is_agent = true;
    has_failed = false;
    uint32_t status = called(it, words);
    if (has_failed && status == MIP_MEMORY)
        status = called(it, words);
    else if (has_failed && strcmp(words[0], "agent") != 0) /* a list of homes does without the room that it asks for at first */
        FAIL("an allocation failed, and the status is %u", status);
    if (status != MIP_OK)
        FAIL("%s has the status %u (%s)", words[0], status, mip_status_name(status));
    if (strcmp(words[0], "open") != 0 && strcmp(words[0], "agent") != 0)
        put_answers(run, it);
}

/* All lines of a text, in one life of the test. */
static void do_all(const char *text, FILE *out)
{
    struct run run = {.out = out};
    size_t size = strlen(text) + 1;
    char *copy = own(size), *rest = NULL;
    memcpy(copy, text, size);
    for (char *line = copy; *line; line = rest) {
        rest = strchr(line, '\n');
        if (!rest)
            FAIL("the last line has no end");
        *rest++ = 0;
        do_line(&run, line);
    }
    for (size_t i = 0; i < run.count; i++) {
        if (run.nodes[i].handle.is_open)
            mip_correspondent_close(&run.nodes[i].handle);
        if (run.nodes[i].agent.is_open)
            mip_agent_close(&run.nodes[i].agent);
    }
    free(copy);
}

static char *whole_input(void)
{
    size_t size = 0, room = 1 << 20;
    char *text = own(room + 1);
    for (size_t more; (more = fread(text + size, 1, room - size, stdin)) > 0; size += more)
        if (size + more == room) {
            char *wider = own(2 * room + 1);
            memcpy(wider, text, room);
            free(text);
            text = wider;
            room *= 2;
        }
    return text;
}

struct kept {
    const char *calls;
    char *text;
    size_t size;
};

static void *do_kept(void *it)
{
    struct kept *kept = it;
    FILE *out = open_memstream(&kept->text, &kept->size);
    do_all(kept->calls, out);
    fclose(out);
    return NULL;
}

static void do_threads(const char *calls)
{
    pthread_t threads[4];
    struct kept kept[4];
    for (int i = 0; i < 4; i++) {
        kept[i] = (struct kept){calls, NULL, 0};
        if (pthread_create(&threads[i], NULL, do_kept, &kept[i]))
            FAIL("no thread begins");
    }
    for (int i = 0; i < 4; i++)
        pthread_join(threads[i], NULL);
    for (int i = 1; i < 4; i++)
        if (kept[i].size != kept[0].size || memcmp(kept[i].text, kept[0].text, kept[0].size) != 0)
            FAIL("two threads answer differently");
    fwrite(kept[0].text, 1, kept[0].size, stdout);
    for (int i = 0; i < 4; i++)
        free(kept[i].text);
}

/* Each allocation fails in turn, until a run has none left to fail. */
static void do_failing(const char *calls)
{
    struct kept wanted = {calls, NULL, 0};
    do_kept(&wanted);
    long number = 0;
    for (bool any = true; any; number++) {
        struct kept kept = {calls, NULL, 0};
        FILE *out = open_memstream(&kept.text, &kept.size);
        left = number;
        do_all(calls, out);
        any = left < 0;
        left = -1;
        fclose(out);
        if (kept.size != wanted.size || memcmp(kept.text, wanted.text, wanted.size) != 0)
            FAIL("other answers once allocation %ld has failed", number);
        free(kept.text);
    }
    fprintf(stderr, "%ld allocations failed in turn\n", number - 1);
    fwrite(wanted.text, 1, wanted.size, stdout);
    free(wanted.text);
}

#define IS(status, call) do { uint32_t was = (call); if (was != (status)) FAIL("%s: status %u and not %u", #call, was, (unsigned)(status)); } while (0)

static void do_closed(void)
{
    struct mip_correspondent_handle node = {0};
    struct mip_answer_fields fields = {0};
    struct mip_row_fields row = {0};
    uint8_t own_address[16] = {0x20, 0x01, 0x0d, 0xb8, [15] = 2}, seed[32] = {0}, bytes[2048] = {0};
    size_t size = 0;
    uint64_t too_late = (uint64_t)1 << 62;
    for (int round = 0; round < 2; round++) {
        IS(MIP_CLOSED, mip_correspondent_close(&node));
        IS(MIP_CLOSED, mip_correspondent_take(&node, 0, 0, bytes, 40));
        IS(MIP_CLOSED, mip_correspondent_send(&node, 0, own_address, 253, bytes, 1));
        IS(MIP_CLOSED, mip_correspondent_refresh(&node, 0, own_address));
        IS(MIP_CLOSED, mip_correspondent_tick(&node, 0));
        IS(MIP_CLOSED, mip_correspondent_next(&node, &fields, bytes, sizeof bytes, &size));
        IS(MIP_CLOSED, mip_correspondent_route(&node, 0, own_address, bytes));
        IS(MIP_CLOSED, mip_correspondent_row(&node, 0, 0, &row));
        if (round == 1)
            break;
        IS(MIP_ARGUMENT, mip_correspondent_open(&node, own_address, seed, 0, 0, 4, 0));
        IS(MIP_ARGUMENT, mip_correspondent_open(&node, own_address, seed, 0, 0, 4, 9));
        IS(MIP_ARGUMENT, mip_correspondent_open(&node, own_address, seed, 0, 0, 0x20000000, 8));
        IS(MIP_OK, mip_correspondent_open(&node, own_address, seed, 0, 0, 4, 8));
        IS(MIP_ALREADY_OPEN, mip_correspondent_open(&node, own_address, seed, 0, 0, 4, 8));
        IS(MIP_NONE, mip_correspondent_next(&node, &fields, bytes, sizeof bytes, &size));
        IS(MIP_NONE, mip_correspondent_route(&node, 0, own_address, bytes));
        IS(MIP_NONE, mip_correspondent_row(&node, 0, 0, &row));
        IS(MIP_OK, mip_correspondent_take(&node, 1000, 7, bytes, 0));
        IS(MIP_LATE, mip_correspondent_take(&node, 999, 8, bytes, 0));
        IS(MIP_LATE, mip_correspondent_take(&node, too_late, 8, bytes, 0));
        IS(MIP_LATE, mip_correspondent_send(&node, 999, own_address, 253, bytes, 1));
        IS(MIP_LATE, mip_correspondent_refresh(&node, 999, own_address));
        IS(MIP_LATE, mip_correspondent_tick(&node, 999));
        IS(MIP_LATE, mip_correspondent_route(&node, 999, own_address, bytes));
        IS(MIP_LATE, mip_correspondent_row(&node, 999, 0, &row));
        IS(MIP_ARGUMENT, mip_correspondent_send(&node, 1000, own_address, 135, bytes, 1));
        IS(MIP_ARGUMENT, mip_correspondent_send(&node, 1000, own_address, 253, bytes, 513));
        /* the answer of the first packet still stands behind all these refusals */
        IS(MIP_OK, mip_correspondent_next(&node, &fields, bytes, sizeof bytes, &size));
        if (fields.kind != MIP_ANSWER_DROPPED || fields.number != 7 || strcmp(mip_why_name(fields.why), "short") != 0)
            FAIL("the answer to no bytes is another one");
        IS(MIP_NONE, mip_correspondent_next(&node, &fields, bytes, sizeof bytes, &size));
        IS(MIP_OK, mip_correspondent_tick(&node, 1000));
        IS(MIP_OK, mip_correspondent_close(&node));
        if (node.is_open)
            FAIL("a closed handle is open");
    }
    struct mip_packet_fields head = {.proto = 253, .hop = 64, .flow = 1 << 20};
    IS(MIP_ARGUMENT, mip_write_packet(&head, bytes, 0, bytes + 100, 100, &size));
    head.flow = 0;
    head.proto = 43;
    IS(MIP_ARGUMENT, mip_write_packet(&head, bytes, 0, bytes + 100, 100, &size));
    head.proto = 253;
    IS(MIP_NO_ROOM, mip_write_packet(&head, bytes, 3, bytes + 100, 42, &size));
    if (size != 43)
        FAIL("the size of a packet is told as %zu", size);
    uint8_t *large = own(70000);
    IS(MIP_TOO_BIG, mip_write_packet(&head, large, 65536, bytes, sizeof bytes, &size));
    free(large);
    struct mip_message_fields message = {.kind = 8};
    IS(MIP_ARGUMENT, mip_write_message(own_address, own_address, &message, bytes, sizeof bytes, &size));
    message = (struct mip_message_fields){.kind = 5, .options = {.has_number = true, .number = 8}};
    IS(MIP_ARGUMENT, mip_write_message(own_address, own_address, &message, bytes, sizeof bytes, &size));
    uint16_t sum = 0;
    IS(MIP_ARGUMENT, mip_checksum(own_address, own_address, 135, bytes, 8, 3, &sum));
    IS(MIP_ARGUMENT, mip_checksum(own_address, own_address, 135, bytes, 8, 8, &sum));
    if (mip_is_authentic(seed, own_address, own_address, bytes, 17))
        FAIL("a message of 17 bytes is authentic");
}

static void do_closed_agent(void)
{
    struct mip_agent_handle agent = {0};
    struct mip_answer_fields fields = {0};
    struct mip_registration_fields row = {0};
    struct mip_shield_fields shield = {0};
    uint8_t own_address[16] = {0x20, 0x01, 0x0d, 0xb8, [15] = 2}, homes[48] = {0x20, 0x01, [16] = 0x20, 0x01, [32] = 0xfe, 0x80}, bytes[2048] = {0};
    size_t size = 0;
    uint64_t too_late = (uint64_t)1 << 62, due = 0;
    for (int round = 0; round < 2; round++) {
        IS(MIP_CLOSED, mip_agent_close(&agent));
        IS(MIP_CLOSED, mip_agent_take(&agent, 0, 0, &shield, homes, 0, bytes, 40));
        IS(MIP_CLOSED, mip_agent_tick(&agent, 0));
        IS(MIP_CLOSED, mip_agent_plan(&agent, 0, 1, 1));
        IS(MIP_CLOSED, mip_agent_heard(&agent, 0, own_address, 1, 1));
        IS(MIP_CLOSED, mip_agent_next(&agent, &fields, bytes, sizeof bytes, &size));
        IS(MIP_CLOSED, mip_agent_careof(&agent, 0, own_address, bytes));
        IS(MIP_CLOSED, mip_agent_row(&agent, 0, 0, &row));
        IS(MIP_CLOSED, mip_agent_due(&agent, &due));
        if (round == 1)
            break;
        IS(MIP_ARGUMENT, mip_agent_open(&agent, own_address, 1, 4, homes, 17));
        IS(MIP_ARGUMENT, mip_agent_open(&agent, own_address, 1, 4, homes, 48));
        IS(MIP_OK, mip_agent_open(&agent, own_address, 1, 4, homes, 32));
        IS(MIP_ALREADY_OPEN, mip_agent_open(&agent, own_address, 1, 4, homes, 32));
        IS(MIP_NONE, mip_agent_next(&agent, &fields, bytes, sizeof bytes, &size));
        IS(MIP_NONE, mip_agent_careof(&agent, 0, homes, bytes));
        IS(MIP_NONE, mip_agent_row(&agent, 0, 0, &row));
        IS(MIP_NONE, mip_agent_due(&agent, &due));
        IS(MIP_OK, mip_agent_take(&agent, 1000, 7, &shield, homes, 48, bytes, 0));
        IS(MIP_ARGUMENT, mip_agent_take(&agent, 1000, 8, &shield, homes, 47, bytes, 0));
        IS(MIP_LATE, mip_agent_take(&agent, 999, 8, &shield, homes, 48, bytes, 0));
        IS(MIP_LATE, mip_agent_take(&agent, too_late, 8, &shield, homes, 48, bytes, 0));
        IS(MIP_LATE, mip_agent_tick(&agent, 999));
        IS(MIP_LATE, mip_agent_plan(&agent, 999, 1, 1));
        IS(MIP_LATE, mip_agent_heard(&agent, 999, own_address, 1, 1));
        IS(MIP_LATE, mip_agent_careof(&agent, 999, homes, bytes));
        IS(MIP_LATE, mip_agent_row(&agent, 999, 0, &row));
        /* the answer of the first packet still stands behind all these refusals */
        IS(MIP_OK, mip_agent_next(&agent, &fields, bytes, sizeof bytes, &size));
        if (fields.kind != MIP_ANSWER_DROPPED || fields.number != 7 || strcmp(mip_why_name(fields.why), "short") != 0)
            FAIL("the answer to no bytes is another one");
        IS(MIP_NONE, mip_agent_next(&agent, &fields, bytes, sizeof bytes, &size));
        IS(MIP_OK, mip_agent_plan(&agent, 1000, 1, 1));
        IS(MIP_OK, mip_agent_heard(&agent, 1000, own_address, 1, 1));
        IS(MIP_OK, mip_agent_tick(&agent, 1000));
        IS(MIP_OK, mip_agent_close(&agent));
        if (agent.is_open)
            FAIL("a closed handle is open");
    }
}

int main(int count, char **words)
{
    const char *how = count > 1 ? words[1] : "";
    if (strcmp(how, "--closed") == 0) {
        do_closed();
        do_closed_agent();
        return 0;
    }
    char *calls = whole_input();
    if (strcmp(how, "--threads") == 0)
        do_threads(calls);
    else if (strcmp(how, "--fail") == 0)
        do_failing(calls);
    else
        do_all(calls, stdout);
    free(calls);
    return 0;
}
