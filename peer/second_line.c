/* Follows document 01's rules of the line word by word, with no thought for speed. */
#include "second_line.h"

int second_settings_refusal(uint64_t alpha, uint64_t ticks_per_byte)
{
    if (alpha < 1 || alpha > MOST_ALPHA)
        return 8;
    if (ticks_per_byte < 1 || ticks_per_byte > MOST_TICKS_PER_BYTE)
        return 9;
    return 0;
}

int second_open(struct second_line *line, uint64_t alpha, uint64_t ticks_per_byte)
{
    int refusal = second_settings_refusal(alpha, ticks_per_byte);
    line->alpha = refusal == 0 ? alpha : 1;
    line->ticks_per_byte = refusal == 0 ? ticks_per_byte : 1;
    line->clock = 0;
    line->falls_free = 0;
    line->admitted = 0;
    line->gone = 0;
    return refusal;
}

static uint64_t later(uint64_t one, uint64_t other)
{
    return one > other ? one : other;
}

static uint64_t transmission_time(const struct second_line *line, const struct packet *packet)
{
    return packet->length * line->ticks_per_byte;
}

static int some_wait(const struct second_line *line)
{
    return line->gone < line->admitted;
}

/* Only asked while some packet waits. */
static uint64_t due_instant(const struct second_line *line)
{
    return later(line->falls_free, line->packets[line->gone].arrival);
}

static size_t waiting_of(const struct second_line *line, enum kind marking)
{
    size_t waiting = 0;
    for (size_t i = line->gone; i < line->admitted; i++)
        if (line->packets[i].marking == marking)
            waiting++;
    return waiting;
}

/* The index of the first waiting unmarked packet, or line->admitted if there is none. */
static size_t first_unmarked(const struct second_line *line)
{
    size_t i = line->gone;
    while (i < line->admitted && line->packets[i].marking != UNMARKED)
        i++;
    return i;
}

/* Where the unmarked packet with this index starts on the reference line, which
 * carries the admitted unmarked packets alone; simulated anew from the first. */
static uint64_t reference_start(const struct second_line *line, size_t index)
{
    uint64_t end_of_last = 0;
    for (size_t i = 0; i < index; i++) {
        const struct packet *packet = &line->packets[i];
        if (packet->marking == UNMARKED)
            end_of_last = later(packet->arrival, end_of_last) + transmission_time(line, packet);
    }
    return later(line->packets[index].arrival, end_of_last);
}

static uint64_t planned_start(const struct second_line *line, size_t index)
{
    uint64_t plan = due_instant(line);
    for (size_t i = line->gone; i < index; i++)
        if (line->packets[i].marking == UNMARKED)
            plan += transmission_time(line, &line->packets[i]);
    return plan;
}

static uint64_t extra_delay(const struct second_line *line, size_t index)
{
    return planned_start(line, index) - reference_start(line, index);
}

static struct second_answer refused(int refusal)
{
    return (struct second_answer){ .letter = 'R', .refusal = refusal };
}

/* In this order no sum or product can leave 64 bits, whatever the call's numbers.
 * Refusal 7 is missing: a line is given far fewer packets than there are numbers. */
static int arrival_refusal(const struct second_line *line, const struct packet *packet)
{
    if (packet->length < 1 || packet->length > MOST_LENGTH)
        return 1;
    if (packet->arrival > MOST_INSTANT)
        return 2;
    if (packet->arrival < line->clock)
        return 3;
    if (packet->marking == MARKED && transmission_time(line, packet) > line->alpha)
        return 4;
    if (some_wait(line) && due_instant(line) < packet->arrival)
        return 5;
    if (waiting_of(line, packet->marking) == WAITING_ROOM)
        return 6;
    return 0;
}

static struct second_answer arrive(struct second_line *line, struct packet packet)
{
    int refusal = arrival_refusal(line, &packet);
    if (refusal != 0)
        return refused(refusal);
    size_t index = line->admitted;
    line->clock = packet.arrival;
    line->packets[index] = packet;
    line->admitted++;
    if (packet.marking == MARKED)
        return (struct second_answer){ .letter = 'M', .number = index + 1 };
    return (struct second_answer){
        .letter = 'A', .number = index + 1, .extra_delay = extra_delay(line, index) };
}

/* The index of the packet that the decision starts; those waiting ahead are dropped. */
static size_t chosen(const struct second_line *line)
{
    size_t head = line->gone;
    size_t first = first_unmarked(line);
    if (first == head || first == line->admitted)
        return head;
    uint64_t time = transmission_time(line, &line->packets[head]);
    return extra_delay(line, first) + time <= line->alpha ? head : first;
}

static struct second_answer decide(struct second_line *line)
{
    size_t index = chosen(line);
    struct packet *packet = &line->packets[index];
    struct second_answer answer = {
        .letter = 'S',
        .number = index + 1,
        .start = due_instant(line),
        .extra_delay = packet->marking == UNMARKED ? extra_delay(line, index) : 0,
        .dropped = index - line->gone,
        .packet = *packet };
    for (size_t i = line->gone; i < index; i++)
        line->packets[i].fate = DROPPED;
    packet->fate = STARTED;
    line->gone = index + 1;
    line->falls_free = answer.start + transmission_time(line, packet);
    return answer;
}

static struct second_answer advance(struct second_line *line, uint64_t instant)
{
    if (instant > MOST_INSTANT)
        return refused(2);
    if (instant < line->clock)
        return refused(3);
    line->clock = instant;
    if (!some_wait(line) || due_instant(line) > instant)
        return (struct second_answer){ .letter = 'N' };
    return decide(line);
}

struct second_answer second_take(struct second_line *line, const struct event *event)
{
    if (event->kind == ADVANCE)
        return advance(line, event->instant);
    return arrive(line, (struct packet){ .marking = event->kind, .length = event->length,
                                         .place = event->place, .arrival = event->instant,
                                         .fate = WAITING });
}

uint64_t second_tally(const struct second_line *line, enum kind marking, enum fate fate)
{
    uint64_t tally = 0;
    for (size_t i = 0; i < line->admitted; i++)
        if (line->packets[i].marking == marking && line->packets[i].fate == fate)
            tally++;
    return tally;
}

uint64_t second_admitted(const struct second_line *line, enum kind marking)
{
    return second_tally(line, marking, WAITING) + second_tally(line, marking, STARTED)
           + second_tally(line, marking, DROPPED);
}
