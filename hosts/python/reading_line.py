"""The reading line: a cutter, a sign finder, an expander, and a second reader who comes late."""

from thondrimai import NEVER, BelowVisibleTime, Desk

desk = Desk()


def sweep() -> None:
    swept = desk.strong_sweep()
    bound = "never" if swept.bound == NEVER else swept.bound
    tickets = " and ".join(str(ticket) for ticket in swept.tickets)
    print(f"A strong sweep hands back all below {bound}: {tickets}. {desk.items_present()} items stay.")


cutter = 0
photographs = desk.channel(cutter)
signs = desk.channel(cutter)
finder = desk.new_thread(cutter, 1)
expander = desk.new_thread(cutter, 1)

cut = desk.attach_output(cutter, photographs)
look = desk.attach_input(finder, photographs).connection
write = desk.attach_output(finder, signs)
read = desk.attach_input(expander, signs).connection

# An input begins at the time of its thread, so the readers have attached at line 1.
# Now they give up a time of their own, and go by the lines that they hold open.
desk.set(finder, NEVER)
desk.set(expander, NEVER)

for line in (1, 2, 3):
    desk.put(cutter, cut, line, 100 + line)
    print(f"The cutter puts photograph {100 + line} of line {line}.")
desk.end(cutter)
print("The cutter ends.")
print()

for _ in range(3):
    photograph, line = desk.get_earliest(finder, look)
    desk.put(finder, write, line, 200 + line)
    desk.consume(finder, look, line)
    print(f"The sign finder gets photograph {photograph} of line {line}, puts signs {200 + line}, and is done with it.")
desk.end(finder)
print(f"The sign finder ends. Nobody at work reads photographs now; {desk.items_present()} items lie on the desk.")
print()

ticket, line = desk.get_earliest(expander, read)
desk.consume(expander, read, line)
print(f"The expander gets signs {ticket} of line {line} and expands them.")
ticket, line = desk.get_earliest(expander, read)
print(f"The expander gets signs {ticket} of line {line} and is in doubt.")
print(f"While it holds them open, its visible time is {desk.visible_time(expander)}: from there on it may call up readers.")
sweep()
print()

reader = desk.new_thread(expander, line)
late = desk.attach_input(reader, photographs)
print(f"The expander calls up a second reader for line {line}. It attaches late, with mark {late.mark}.")
photograph, line = desk.get_earliest(reader, late.connection)
print(f"The second reader finds photograph {photograph} of line {line}: the desk has kept it.")
desk.end(reader)
print("The second reader ends.")
print()

desk.consume(expander, read, line)
ticket, line = desk.get_earliest(expander, read)
print(f"The expander moves on and gets signs {ticket} of line {line}. Its visible time is {desk.visible_time(expander)}.")
sweep()
print("The expander asks for another reader for line 2:")
try:
    desk.new_thread(expander, 2)
except BelowVisibleTime as refusal:
    print(f"  {refusal}.")
print()

desk.consume(expander, read, line)
desk.end(expander)
print("The expander ends.")
sweep()
