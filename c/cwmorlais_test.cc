// The header from C++: each of its functions is called, so each must link under its C name. c/cwmorlais_test.c looks at what they give.
#include "cwmorlais.h"

int main() {
    const cwmorlais_plan plan = {3, 2, {1, 0}};
    const cwmorlais_event read = {1, 0, 0, 0};
    cwmorlais_record asker = {}, keeper = {};
    cwmorlais_table table = {};
    if (cwmorlais_desk_start(&asker, plan, 0) || cwmorlais_desk_start(&keeper, plan, 1) || cwmorlais_table_set_up(&table, plan)) {
        return 1;
    }
    uint8_t frame[CWMORLAIS_FRAME_BYTES];

    const cwmorlais_answer asked = cwmorlais_desk_event(&asker, read);
    const cwmorlais_written written = cwmorlais_frame_write(&asked.message, frame, sizeof frame);
    const cwmorlais_reading request = cwmorlais_frame_read(frame, written.used);
    const cwmorlais_answer served = cwmorlais_desk_serve(&keeper, &request.message);
    const cwmorlais_answer brought = cwmorlais_desk_bring(&asker, &served.message);
    const cwmorlais_reply told = cwmorlais_table_event(&table, read);
    const bool holds = asked.reply.code == 1 && written.used == 7 && request.used == 7 && served.reply.code == 0 && brought.reply.code == 2
        && told.code == 1;
    return holds ? 0 : 1;
}
