/* Prints the constants of ymx.h, as NAME NUMBER, and the names of the faults. */
#include "check.h"

#define SAY(name) printf("%s %ld\n", #name, (long)(name))

int main(void) {
    SAY(YMX_E_NO_STREAM);
    SAY(YMX_E_FINISHED);
    SAY(YMX_E_RESET);
    SAY(YMX_E_LOST);
    SAY(YMX_E_CLOSED);
    SAY(YMX_E_PEER_AWAY);
    SAY(YMX_E_OPENS_PENDING);
    SAY(YMX_E_TOO_MANY);
    SAY(YMX_E_EXHAUSTED);
    SAY(YMX_E_PINGS_PENDING);
    SAY(YMX_E_NO_MEMORY);
    SAY(YMX_WAIT);
    SAY(YMX_E_BAD_WINDOW);
    SAY(YMX_E_BAD_FIRST);
    SAY(YMX_RUNNING);
    SAY(YMX_LOST);
    SAY(YMX_CLOSED);
    SAY(YMX_BROKEN);
    for (int fault = YMX_FAULT_BAD_VERSION; fault <= YMX_FAULT_PEER_SAW_INTERNAL_ERROR; fault++)
        printf("%s %d\n", ymx_fault_name(fault), fault);
    SAY(YMX_FAULT_BAD_VERSION);
    SAY(YMX_FAULT_UNKNOWN_TYPE);
    SAY(YMX_FAULT_BAD_SYN);
    SAY(YMX_FAULT_STREAM_IN_USE);
    SAY(YMX_FAULT_WINDOW_EXCEEDED);
    SAY(YMX_FAULT_CREDIT_OVERFLOW);
    SAY(YMX_FAULT_BAD_GO_AWAY_CODE);
    SAY(YMX_FAULT_PEER_SAW_PROTOCOL_ERROR);
    SAY(YMX_FAULT_PEER_SAW_INTERNAL_ERROR);
    SAY(YMX_NEXT_FIRST);
    SAY(YMX_NEXT_RESET);
    SAY(YMX_NEXT_CREDIT);
    SAY(YMX_NEXT_DATA);
    SAY(YMX_NEXT_END);
    SAY(YMX_NEXT_REST);
    SAY(YMX_CLIENT);
    SAY(YMX_LEAST_WINDOW);
    SAY(YMX_WIDEST_WINDOW);
    CHECK(strcmp(ymx_error_name(0), "OK") == 0 && strcmp(ymx_error_name(7), "OK") == 0);
    CHECK(strcmp(ymx_error_name(YMX_E_TOO_MANY), "TOO_MANY") == 0 && strcmp(ymx_error_name(YMX_E_NULL), "NULL") == 0);
    CHECK(strcmp(ymx_error_name(-17), "UNKNOWN") == 0 && strcmp(ymx_error_name(INT64_MIN), "UNKNOWN") == 0);
    return 0;
}
