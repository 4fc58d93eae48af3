// no_exceptions.cpp: cebdyraq.hpp in a program without exceptions. What is refused ends it, with a line that has the code.
#include "../../c/cebdyraq.hpp"

int main(int words, char **) {
    cebdyraq::service service(8, 1, 4);
    cebdyraq::thread thread = service.attach_thread("t", 5);
    thread.start();
    thread.enter(1);
    if (words > 1) thread.start();
    return thread.frame_count() == 1 ? 0 : 1;
}
