// The same in C++: an exception leaves a thread's function for its caller, which looks for its handler by the program's own
// program headers. It prints the arguments, and ends with their number.
#include <cstdio>
#include <stdexcept>
#include <string>
#include <thread>

static thread_local int printed = 100;

static void print(const char *word)
{
    throw std::runtime_error(std::to_string(printed++) + " <" + word + ">");
}

int main(int count, char **arguments)
{
    std::thread thread([=] {
        for (char **at = arguments + 1; *at; at++)
            try {
                print(*at);
            } catch (const std::exception &caught) {
                std::printf("%s\n", caught.what());
            }
    });
    thread.join();
    std::printf("%d\n", printed);
    return count - 1;
}
