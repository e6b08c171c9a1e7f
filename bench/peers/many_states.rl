#include "io.h"
static struct field line;

static void mark(void) {
    SAY("0 ");
    if (line.length >= 11 && line.bytes[line.length - 11] == 97) to[used - 2] = 49;
    hold(&line, 10);
    say(&line);
}
%%{
machine m;
alphtype unsigned char;
action hold { hold(&line, *p); }
main := ( [ab]* $hold "\n" @{ mark(); } )*;
}%%
%% write data noentry;
int main(void) {
    int cs;
    ssize_t got;
    %% write init;
    while ((got = read(0, in, sizeof in)) > 0) {
        const unsigned char *p = in, *pe = in + got;
        %% write exec;
        if (cs == m_error) return 1;
    }
    flush();
    return cs < m_first_final;
}
