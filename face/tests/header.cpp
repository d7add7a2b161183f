// That both headers are C++, and how a program of C++ uses them: header FOLDER.
#include "fkv_posix.h"

#include <cstring>
#include <memory>
#include <string>

struct CloseFile {
    void operator()(fkv_file *file) const { fkv_close_file(file); }
};

int main(int count, char **words) {
    if (count != 2 || std::strcmp(fkv_name_of(-FKV_ASLEEP), "Asleep") != 0) return 1;
    std::string path = std::string(words[1]) + "/counts";
    fkv_shape shape = {8, 64, 16, 8, 4, 64, 4096};
    fkv_file *opened = nullptr;
    fkv_session *session = nullptr;
    fkv_update told;
    if (fkv_make_file(path.c_str(), &shape) < 0 || fkv_open_file(path.c_str(), nullptr, &opened) < 0) return 1;
    std::unique_ptr<fkv_file, CloseFile> store(opened);
    if (fkv_start(store.get(), nullptr) < 0 || fkv_join(store.get(), FKV_ANY_SESSION, &session) < 0) return 1;
    bool is_done = fkv_max(session, 7, 40, &told) == FKV_DONE && told.serial == 1 && told.value == 40;
    bool is_kept = fkv_commit_and_wait(store.get(), session) == 0;
    return fkv_leave(store.get(), session) == 0 && is_done && is_kept ? 0 : 1;
}
