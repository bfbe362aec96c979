/* The library's operations under short names, as the trials call them. */
#ifndef TRIALS_FACE_HPP
#define TRIALS_FACE_HPP

#include "../bench/memo_trial.hpp"
#include "platewright.h"

namespace library {

constexpr auto check = platewright_check;
constexpr auto check_begin = platewright_check_begin;
constexpr auto check_part = platewright_check_part;
constexpr auto check_end = platewright_check_end;
constexpr auto search = platewright_search;
constexpr auto memo_search = memo_trial_search; /* the same with another memory */
constexpr auto list = platewright_list;
constexpr auto settle = platewright_settle;
constexpr auto index = platewright_index;
constexpr auto add = platewright_add;
constexpr auto take_back = platewright_take_back;
constexpr auto preview = platewright_preview;
constexpr auto read = platewright_read;
constexpr auto save = platewright_save;
constexpr auto window = platewright_window;

} // namespace library

#endif
