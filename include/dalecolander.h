/*
 * Dalecolander, a template engine of the Jinja2 kind, called from C.
 *
 * There are two ways. With a session the templates are compiled once, and rendered often:
 *
 *   dalecolander_session session = DALECOLANDER_CLOSED;
 *   status = dalecolander_open(request, request_length, &session, out, out_length, &written);
 *   status = dalecolander_render_in(&session, name, name_length, context, context_length, out, out_length, &written);
 *   dalecolander_close(&session);
 *
 * Without one, `dalecolander_render` and `dalecolander_names` do all that a request says in one call, and keep nothing.
 *
 * A request is one JSON object of at most 128 levels:
 *
 *   {
 *     "templates": {"page.html": "Hello {{ name }}!", ..},   the names of the templates and their texts
 *     "main": "page.html",                                   the template that is rendered
 *     "context": {"name": "World", ..},                      what the templates see
 *
 *     "fuel": 100000,             a render ends when it is used up; none is set where this is left out
 *     "limit": 500,               how deep includes, calls and blocks may go; 500 at most
 *     "undefined": "lenient",     or "chainable", "semistrict", "strict"
 *     "builtins": true,           whether the builtin filters, tests and functions can be used; false where this is left out
 *     "autoescape": "name",       by the template's name; or "html", "json", "none"
 *     "floats": "refused",        numbers of the context that are no whole ones of 64 bits; or "text": a text, as they are spelled
 *     "syntax": {                 what marks tags, and how white space beside them goes
 *       "block_start": "{%", "block_end": "%}", "variable_start": "{{", "variable_end": "}}",
 *       "comment_start": "{#", "comment_end": "#}", "line_statement_prefix": "#", "line_comment_prefix": "##",
 *       "trim_blocks": false, "lstrip_blocks": false, "keep_trailing_newline": false, "scoped_blocks": false
 *     }
 *   }
 *
 * "templates" must stand, and "main" where a template is rendered; a member that is null stands for none, and of equal names the last
 * one counts. Members of other names are passed over, and so are "main" and "context" where a session is opened.
 *
 * The status that is given back is 0 where all is written, and then the reply is the text, or the list of names. Else it is
 *
 *   1  the render ended with an error;
 *   2  the request is malformed, or its syntax is refused;
 *   4  the context is refused;
 *   5  a template is refused, or the main one does not stand;
 *   6  memory was refused;
 *
 * and the reply is one JSON object:
 *
 *   {"kinds": ["BadInclude", "UndefinedError"],            the kinds of the error, outermost first
 *    "places": [{"name": "page.html", "line": 3, "column": 1, "start": 17, "end": 40}, ..],
 *    "text": "Hello "}                                     what was written before
 *
 * A place is the name of a template, a line and a column, from 1 on, and the bytes of its text from `start` to `end`, which are equal
 * where only the line is known. The places of what was refused come first, then those of the calls around it, and so for each kind.
 * Of a malformed request there are no kinds, and "member" names the member that is malformed, or is "request". Where no memory is left
 * even for that, the reply is empty, at status 6.
 *
 * `out` takes the reply as far as there is room, and nothing past `out_length`; `written` gets the length of the whole, at the same
 * status. So a caller that gets a `written` past its `out_length` calls again with more room. There is no 0 at the end.
 *
 * What a caller owes:
 *
 * - All texts are UTF-8, without a 0 at the end.
 * - No pointer is NULL, also at a length of 0, and `out` overlaps none of the other arguments, nor `written`, nor the session.
 * - A session is DALECOLANDER_CLOSED before it is opened, and is rendered in and closed only while it is open: after
 *   `dalecolander_open` gave 0. Its pointer is neither changed nor copied: what it points to belongs to it.
 * - A session stays on the thread that opened it, with all calls. Sessions of their own on several threads may be used at once, and so
 *   may the calls without a session.
 * - A call takes memory by `malloc`, `realloc` and `free`, of one allocator, and does not come from a signal handler.
 * - A call needs up to 3 MiB of stack for templates and contexts that nest as deep as they may. A thread with less is given less to do:
 *   by a lower "limit".
 */
#ifndef DALECOLANDER_H
#define DALECOLANDER_H

#include <stddef.h>
#include <stdint.h>

#ifdef __cplusplus
extern "C" {
#endif

enum {
    DALECOLANDER_DONE = 0,
    DALECOLANDER_RENDER = 1,
    DALECOLANDER_REQUEST = 2,
    DALECOLANDER_CONTEXT = 4,
    DALECOLANDER_TEMPLATE = 5,
    DALECOLANDER_MEMORY = 6
};

/* A session, or none. */
typedef struct {
    void *at;
} dalecolander_session;

#define DALECOLANDER_CLOSED {NULL}

/*
 * Compiles the templates of a request and opens a session with them, under the request's settings. At status 0 `written` gets 0 and
 * the session is open; else it stays closed, and the reply says why.
 */
uint8_t dalecolander_open(const uint8_t *request, size_t request_length, dalecolander_session *session,
    uint8_t *out, size_t out_length, size_t *written);

/*
 * Renders the template of a name in an open session, over a context, which is a JSON object of at most 128 levels; a length of 0 stands
 * for none. The session stays open, also after an error.
 */
uint8_t dalecolander_render_in(dalecolander_session *session, const uint8_t *name, size_t name_length,
    const uint8_t *context, size_t context_length, uint8_t *out, size_t out_length, size_t *written);

/* Closes an open session, and gives up all that it holds. It may be opened again. */
void dalecolander_close(dalecolander_session *session);

/* Renders the main template of a request over its context. */
uint8_t dalecolander_render(const uint8_t *request, size_t request_length, uint8_t *out, size_t out_length, size_t *written);

/*
 * Tells the names of a context that can matter to the main template, as a JSON list in the order of their bytes, and a newline. The
 * context of the request is not read.
 */
uint8_t dalecolander_names(const uint8_t *request, size_t request_length, uint8_t *out, size_t out_length, size_t *written);

#ifdef __cplusplus
}
#endif

#endif
