"""What clients of `serve` see: examples/serve_client.py, and twenty of them over examples/serve_broker.py, while `serve`
is killed on the way.

`faults_of(root)` runs both through run.sh in folders of their own, and gives a line for each fault."""
import asyncio
import os
import signal
import subprocess
import sys
import tempfile

CLIENTS = 20
COMMANDS = 50
SECONDS = 120


def client_faults(root, room):
    """The client keeps its accounts, and ends well."""
    ran = subprocess.run([sys.executable, f"{root}/examples/serve_client.py"], cwd=room, stdout=subprocess.PIPE, stderr=subprocess.PIPE, timeout=SECONDS, check=False)
    said = ran.stdout.decode(errors="replace")
    if ran.returncode or len(said.splitlines()) != 4:
        return [f"examples/serve_client.py: status {ran.returncode}: {said[-500:]}{ran.stderr.decode(errors='replace')[-500:]}"]
    return []


async def talk(port, number):
    """Sends the commands of a client: the lines that it was told."""
    reader, writer = await asyncio.open_connection("127.0.0.1", port)
    writer.write(b"# a client\nconfig nodes=1 shards=4 producers=32\n\n")
    for k in range(1, COMMANDS + 1):
        writer.write(f"send {number} c{number} {k} add {k}\n".encode())
        await asyncio.sleep(0.02)
    writer.write(b"x" * 300 + b"\n")
    writer.write_eof()
    return (await reader.read()).decode().splitlines()


def told_faults(number, told):
    """Of each line one answer, in order: the sums of what was added."""
    wanted = [f"done {number} c{number} {k} ok {k * (k + 1) // 2}" for k in range(1, COMMANDS + 1)]
    if told[:1] == [] or not told[0].startswith("config ") or told[1:] != [*wanted, "refused 2"]:
        return [f"examples/serve_broker.py: client {number} was told {told}"]
    return []


async def broker_faults(root, room):
    """Each client has each answer once, and each command is recorded once."""
    broker = await asyncio.create_subprocess_exec(sys.executable, f"{root}/examples/serve_broker.py", "0", cwd=room, stdout=subprocess.PIPE)
    port = int((await broker.stdout.readline()).split(b":")[1])
    clients = [asyncio.ensure_future(talk(port, number)) for number in range(1, CLIENTS + 1)]
    for _ in range(2):
        await asyncio.sleep(0.4)
        subprocess.run(["pkill", "-KILL", "-P", str(broker.pid)], check=False)
    found = [it for number, told in enumerate(await asyncio.gather(*clients), 1) for it in told_faults(number, told)]
    broker.send_signal(signal.SIGTERM)
    if await broker.wait():
        found.append(f"examples/serve_broker.py: status {broker.returncode}")
    ran = subprocess.run([f"{root}/run.sh", "serve"], cwd=room, input=b"report\n", stdout=subprocess.PIPE, timeout=SECONDS, check=False)
    records = [it for it in ran.stdout.decode().splitlines() if it.startswith("record ")]
    if len(records) != CLIENTS * COMMANDS:
        found.append(f"examples/serve_broker.py: {len(records)} records, and not {CLIENTS * COMMANDS}")
    return found


def faults_of(root):
    """All of them."""
    with tempfile.TemporaryDirectory() as one, tempfile.TemporaryDirectory() as other:
        return client_faults(root, one) + asyncio.run(asyncio.wait_for(broker_faults(root, other), SECONDS))


if __name__ == "__main__":
    faults = faults_of(os.path.dirname(os.path.dirname(os.path.realpath(__file__))))
    print("\n".join(faults))
    sys.exit(bool(faults))
