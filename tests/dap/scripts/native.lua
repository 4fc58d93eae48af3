-- Is in a C function that does not poll, and that takes years.
local text = string.rep("a", 60)
string.find(text, string.rep("a?", 60) .. text)
