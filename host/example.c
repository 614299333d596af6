/* A host: it builds a bus of two parties, gives them their turns one after the other, and reads with one what the other
 * wrote. */
#include <stdio.h>
#include <stdlib.h>

#include "meskvorn.h"

enum { TALKER, LISTENER, PARTIES, MOST_TURNS = 100 };

static void print(const char *what, meskvorn_answer answer)
{
    if (answer.refusal != MESKVORN_REFUSAL_ACCEPTED) {
        printf("%s: refused with %d\n", what, (int)answer.refusal);
        exit(EXIT_FAILURE);
    }
    printf("%s: %s", what, meskvorn_event_word(answer.event));
    if (answer.event > MESKVORN_EVENT_MOVED) {
        printf(" %02x%s", answer.byte, answer.end ? " END" : "");
    }
    printf("\n");
}

int main(void)
{
    static const uint8_t addresses[PARTIES] = {5, 6};
    meskvorn_bus bus;
    meskvorn_answer answer;
    int turn;

    print("build", meskvorn_bus_build(&bus, addresses, PARTIES, TALKER));
    print("party 0 talks", meskvorn_bus_talk_only(&bus, TALKER, 1));
    print("party 1 listens", meskvorn_bus_listen_only(&bus, LISTENER, 1));
    print("write for party 0", meskvorn_bus_write(&bus, TALKER, 0x41, 1));
    for (turn = 0; turn < MOST_TURNS; turn++) {
        uint8_t party = (uint8_t)(turn % PARTIES);
        answer = meskvorn_bus_step(&bus, party);
        print(party == TALKER ? "turn of party 0" : "turn of party 1", answer);
        if (answer.event == MESKVORN_EVENT_ENDED) {
            print("read for party 1", meskvorn_bus_read(&bus, LISTENER));
            return EXIT_SUCCESS;
        }
    }
    printf("the byte did not end\n");
    return EXIT_FAILURE;
}
