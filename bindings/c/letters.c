/* Opens a session with one template, and renders it for each line of standard input, which is a context. */
#include "dalecolander.h"

#include <stdio.h>
#include <string.h>

static const char REQUEST[] =
    "{\"templates\": {\"letter\": \"Dear {{ name }},\\nyour order {{ order }} is on its way.\\n\"}, \"syntax\": {\"keep_trailing_newline\": true}}";
static const char NAME[] = "letter";

static uint8_t out[4096];

/* Writes a reply, and tells whether all is done. */
static int tell(uint8_t status, size_t written) {
    FILE *file = status == DALECOLANDER_DONE ? stdout : stderr;
    fwrite(out, 1, written < sizeof out ? written : sizeof out, file);
    return status == DALECOLANDER_DONE;
}

int main(void) {
    dalecolander_session session = DALECOLANDER_CLOSED;
    size_t written;
    uint8_t status = dalecolander_open((const uint8_t *)REQUEST, strlen(REQUEST), &session, out, sizeof out, &written);
    if (!tell(status, written)) {
        return status;
    }
    char line[1024];
    while (fgets(line, sizeof line, stdin) != NULL) {
        status = dalecolander_render_in(&session, (const uint8_t *)NAME, strlen(NAME), (const uint8_t *)line, strlen(line), out, sizeof out, &written);
        if (!tell(status, written)) {
            break;
        }
    }
    dalecolander_close(&session);
    return status;
}
