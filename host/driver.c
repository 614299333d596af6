/* A driver for the TMS9914A that knows only the chip's offsets and codes, and two parties that it runs: one sends a
 * message, the other receives it and asks for service. Every access is printed. */
#include <stdio.h>
#include <stdlib.h>

#include "meskvorn.h"

/* Seven turns for each party end a byte that somebody listens to. */
enum { TALKER, LISTENER, PARTIES, TURNS = 7 * PARTIES, MOST_ROUNDS = 100, ROOM = 80 };

/* A chip is a party. On real hardware this is the address of its registers. */
typedef struct chip {
    meskvorn_bus *bus;
    uint8_t party;
} chip;

static void print(meskvorn_answer answer)
{
    if (answer.refusal != MESKVORN_REFUSAL_ACCEPTED) {
        printf("refused with %d\n", (int)answer.refusal);
    } else if (answer.event > MESKVORN_EVENT_MOVED) {
        printf("%s %02x%s\n", meskvorn_event_word(answer.event), answer.byte, answer.end ? " END" : "");
    } else {
        printf("%s\n", meskvorn_event_word(answer.event));
    }
}

static meskvorn_answer port_in(chip on, uint8_t offset)
{
    meskvorn_answer answer = meskvorn_bus_read_register(on.bus, on.party, offset);
    printf("party %d in %d: ", on.party, offset);
    print(answer);
    return answer;
}

static meskvorn_answer port_out(chip on, uint8_t offset, uint8_t value)
{
    meskvorn_answer answer = meskvorn_bus_write_register(on.bus, on.party, offset, value);
    printf("party %d out %d %02x: ", on.party, offset, value);
    print(answer);
    return answer;
}

static void set(chip on, uint8_t command)
{
    port_out(on, MESKVORN_WRITE_AUXILIARY, command | MESKVORN_AUX_SET);
}

static void clear(chip on, uint8_t command)
{
    port_out(on, MESKVORN_WRITE_AUXILIARY, command);
}

static void initialise(chip on)
{
    set(on, MESKVORN_AUX_SWRST);
    clear(on, MESKVORN_AUX_SWRST);
}

/* Writes what the chip takes of the text from this place on, the last byte with END, and gives the place after it. */
static size_t send(chip on, const char *text, size_t at)
{
    while (text[at] != '\0') {
        if (text[at + 1] == '\0') {
            clear(on, MESKVORN_AUX_FEOI);
        }
        if (port_out(on, MESKVORN_WRITE_DATA_OUT, (uint8_t)text[at]).refusal != MESKVORN_REFUSAL_ACCEPTED) {
            return at;
        }
        at++;
    }
    return at;
}

/* Reads what the chip has, and says whether the last byte had END. */
static int receive(chip on, char text[ROOM], size_t *count)
{
    while (*count + 1 < ROOM) {
        meskvorn_answer answer = port_in(on, MESKVORN_READ_DATA_IN);
        if (answer.refusal != MESKVORN_REFUSAL_ACCEPTED) {
            return 0;
        }
        text[(*count)++] = (char)answer.byte;
        if (answer.end) {
            return 1;
        }
    }
    return 0;
}

static int service_is_asked_for(chip on)
{
    return (port_in(on, MESKVORN_READ_BUS_STATUS).byte & MESKVORN_LINE_SRQ) != 0;
}

/* The chips move by the turns that they are given; on real hardware time passes by itself. */
static int transfer(chip talker, chip listener, const char *message)
{
    char text[ROOM] = {0};
    size_t sent = 0, received = 0;
    int round;
    for (round = 0; round < MOST_ROUNDS; round++) {
        sent = send(talker, message, sent);
        meskvorn_bus_give_turns(talker.bus, TURNS, NULL);
        if (receive(listener, text, &received)) {
            printf("received: %s\n", text);
            return 1;
        }
    }
    printf("no END came\n");
    return 0;
}

int main(void)
{
    static const uint8_t addresses[PARTIES] = {5, 6};
    meskvorn_bus bus;
    chip talker = {&bus, TALKER}, listener = {&bus, LISTENER};
    int asked;

    meskvorn_bus_build(&bus, addresses, PARTIES, TALKER);
    initialise(talker);
    initialise(listener);
    set(talker, MESKVORN_AUX_TON);
    set(listener, MESKVORN_AUX_LON);
    if (service_is_asked_for(talker) || !transfer(talker, listener, "GPIB")) {
        return EXIT_FAILURE;
    }
    set(listener, MESKVORN_AUX_RSV2);
    asked = service_is_asked_for(talker);
    printf("service is %s\n", asked ? "asked for" : "not asked for");
    return asked ? EXIT_SUCCESS : EXIT_FAILURE;
}
