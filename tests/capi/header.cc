// ymx.h is a header of C++11 too.
#include <ymx.h>

int main() {
    ymx_session *session = nullptr;
    if (ymx_new(YMX_SERVER, YMX_LEAST_WINDOW, 0, &session) != 0) return 1;
    int64_t id = ymx_open(session);
    ymx_free(session);
    return id == 2 ? 0 : 1;
}
