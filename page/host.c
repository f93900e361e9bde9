// The page's side of the one export of the crate hb_page. The module imports nothing.
#include "heap.h"

#define EXPORT(name) __attribute__((export_name(#name)))
#define NO_MEMORY 3

// Proved: crates/hb_page. A slice is passed as a pointer and a length, and a Global as nothing.
unsigned hb_page_run(const u8 *words, u64 words_len, const u8 *text, u64 text_len, u8 *out, u64 room, u64 *len);

static u8 *words, *text, *report;
static u64 words_len, text_len, report_len;

// The page calls these once each, in this order: a place for words of n bytes, one a line, and for a text (0: no
// memory); the run, which answers the exit status; and where the report is and how long.
EXPORT(hb_words) u8 *hb_words(u64 n) { return words_len = n, words = take(n); }

EXPORT(hb_text) u8 *hb_text(u64 n) { return text_len = n, text = take(n); }

EXPORT(hb_run) unsigned hb_run(void) {
    for (u64 room = 65536;; room = report_len) {
        report = take(room);
        unsigned status = report ? hb_page_run(words, words_len, text, text_len, report, room, &report_len) : NO_MEMORY;
        if (status == NO_MEMORY)
            report_len = 0;
        if (report_len <= room)
            return status;
        rattle_dealloc(report);
    }
}

EXPORT(hb_report) u8 *hb_report(void) { return report; }

EXPORT(hb_report_length) u64 hb_report_length(void) { return report_len; }
