#include "io.h"
static struct field digits;

static void grouped(void) {
    size_t first = digits.length % 3 ? digits.length % 3 : 3;
    for (size_t i = 0; i < digits.length; i++) {
        if (i >= first && (i - first) % 3 == 0) out(44);
        out(digits.bytes[i]);
    }
    digits.length = 0;
}
%%{
machine m;
alphtype unsigned char;
action hold { hold(&digits, *p); }
main := ( [0-9]+ $hold "\n" @{ grouped(); out(10); } )*;
}%%
%% write data noentry;
int main(void) {
    int cs;
    ssize_t got;
    %% write init;
    while ((got = read(0, in, sizeof in)) > 0) {
        const unsigned char *p = in, *pe = in + got;
        %% write exec;
        if (cs == m_error) return 1;
    }
    flush();
    return cs < m_first_final;
}
