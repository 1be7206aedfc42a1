// The header in C++: it compiles, its functions are linked by their C names, and those that stand
// in it are there. The status is 0 where all is so.
#include "keddorimp.h"
#include <cstring>

int main()
{
    uint8_t session[KDR_SESSION_BYTES];
    bool fresh = kdr_fresh(session, sizeof session) == 0;
    bool turn = kdr_turn(session, sizeof session) == KDR_CLIENT;
    unsigned refusal = kdr_refusal(kdr_fresh(session, 1));
    bool text = std::strstr(kdr_refusal_text(refusal), "lent output shorter") != nullptr;
    bool earlier = kdr_compare(-1, 999999999, 0, 0) == -1;
    return fresh && turn && text && earlier ? 0 : 1;
}
