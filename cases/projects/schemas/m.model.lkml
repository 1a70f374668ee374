# An explore for each attribute shows the texts that a caller's value lets pass; `free` asks for no attribute.
include: "callers"
