-- Writes on and on, and then makes the file that is named by the environment.
for _ = 1, 50 do
    print("out")
    io.stderr:write("err\n")
    sleep(0.01)
end
io.open(os.getenv("CQ_MADE"), "w"):close()
