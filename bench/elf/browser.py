"""Uses a page in chromium, without a network. Other scripts of this folder import this."""
import json
import os
import re
import subprocess
import sys
import tempfile

# Puts what the script collected in `said` into the page, where `use` finds it.
END = """
const result = document.createElement("pre");
result.id = "said";
result.textContent = JSON.stringify(said);
document.body.append(result);
</script>
</body>"""


def chromium(size, *words):
    program = ["chromium", "--headless", "--no-sandbox", "--disable-gpu", f"--window-size={size}"]
    ran = subprocess.run(program + list(words), capture_output=True, text=True, timeout=120)
    return ran.stdout


def use(page, script, size, screenshot=None, address=""):
    """Runs `script` in the page, in a window of this size, and returns what it stored in `said`. With
    `screenshot`, a picture of the page as it is after that is written to this file. `address` is what follows
    the page's own, such as `#search=main`."""
    with tempfile.TemporaryDirectory() as folder:
        used = os.path.join(folder, "used.html")
        with open(page) as file, open(used, "w") as out:
            out.write(file.read().replace("</body>", f"<script>\nconst said = {{}};\n{script}{END}"))
        text = chromium(size, "--dump-dom", "file://" + used + address)
        if screenshot:
            chromium(size, f"--screenshot={screenshot}", "file://" + used + address)
    said = re.search(r'<pre id="said">(.*?)</pre>', text, re.S)
    if said is None:
        sys.exit("the page's script didn't run to its end")
    return json.loads(said[1].replace("&gt;", ">").replace("&lt;", "<").replace("&amp;", "&"))


def finish(said, holds):
    """Ends the program: with `ok`, or with the names of what doesn't hold."""
    wrong = [what for what, is_so in holds.items() if not is_so]
    if wrong:
        sys.exit(f"wrong: {', '.join(wrong)}\n{json.dumps(said, indent=1)}")
    print("ok")
