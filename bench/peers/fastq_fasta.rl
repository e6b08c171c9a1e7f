#include "io.h"

%%{
machine m;
alphtype unsigned char;
action out { out(*p); }
main := ( "@" @{ out(62); } [^\n]* $out "\n" @out [A-Za-z.*\-]+ $out "\n" @out "+" [^\n]* "\n" [^\n]* "\n" )*;
}%%
%% write data noentry;
int main(void) {
    int cs;
    ssize_t got;
    %% write init;
    while ((got = read(0, in, sizeof in)) > 0) {
        const unsigned char *p = in, *pe = in + got;
        %% write exec;
        if (cs == m_error) return 1;
    }
    flush();
    return cs < m_first_final;
}
