/* A submitted act is written with the next number, counted once it is written, and then sent. */
#include <stdio.h>
#include "ee_client.h"

int main(void) {
    struct ee_client_journal journal = {1, 0, 0, 0, 0, 0};
    struct ee_client_event events[] = {
        {EE_CLIENT_SUBMIT, 0, 5, 0, 0}, {EE_CLIENT_WRITTEN, 0, 0, 0, 0}, {EE_CLIENT_WRITTEN, 0, 0, 0, 0}};
    for (size_t count = 1; count <= 3; count++) {
        struct ee_client_turn turn;
        ee_client_turn(100, &journal, events, count, &turn);
        printf("%d %d %d %d %d %d\n", (int)turn.action, (int)turn.number, (int)turn.act,
               (int)turn.written.next, (int)turn.written.number, (int)turn.written.sent);
    }
    return 0;
}
