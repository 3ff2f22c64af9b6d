"""The peak memory of a program that runs, as the system has it."""


def peak_memory(pid):
    """The most memory that the process has had so far, in kB."""
    try:
        with open("/proc/%d/status" % pid) as status:
            for line in status:
                if line.startswith("VmHWM:"):
                    return int(line.split()[1])
    except OSError:
        pass
    return 0
