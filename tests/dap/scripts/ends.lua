-- Writes to both streams, and ends.
io.write("to ", "stdout é\n")
io.stderr:write("to stderr\n")
os.exit(3)
