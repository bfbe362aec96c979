/* A fault in one line. */
#include "fault.hpp"

namespace command {

std::string Fault::message() const {
    std::string text = source;
    if (spot.line != 0) text += ":" + std::to_string(spot.line) + ":" + std::to_string(spot.column);
    if (!text.empty()) text += ": ";
    if (byte) text += "byte " + std::to_string(*byte) + ": ";
    text += words;
    if (number) text += " (" + std::to_string(*number) + ")";
    if (!about.empty()) text += ": " + about;
    return text;
}

}
