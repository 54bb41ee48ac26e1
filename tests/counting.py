"""What the test scripts share: they count cases, name those that are left out, and end with a line that tests/run.py reads."""
import subprocess

passed, failed, left_out = 0, 0, []


def case(name, wrong):
    """Counts a case, and names what is wrong with it, if anything is."""
    global passed, failed
    if wrong:
        failed += 1
        print(f"{name}: {str(wrong)[-2000:]}", flush=True)
    else:
        passed += 1


def skipped(name, why):
    """Names a case, or a group of them, that can't be run here. A comma in the name would end it in the last line."""
    left_out.append(name)
    print(f"skipped: {name}: {why}", flush=True)


def run(*words, **how):
    """What a command leaves. Its outputs are text, unless `text=False` is among how it is run."""
    return subprocess.run([str(word) for word in words], **{"capture_output": True, "text": True, **how})


def close():
    """Prints the last line, 'N passed, M failed', with what was skipped, and gives the status of the script."""
    print(f"{passed} passed, {failed} failed" + (f" ({len(left_out)} skipped: {', '.join(left_out)})" if left_out else ""))
    return 1 if failed or not (passed or left_out) else 0
