import sys
import jdr

try:
    plan = jdr.Plan.read(open(sys.argv[1], "rb").read())
except jdr.Refused as refusal:
    sys.exit(f"the plan is refused: {refusal}")
for found in plan.find("etcher 1"):
    groups = [group.description for group in found.groups]
    print(found.row, found.kind.name, groups, found.extent)
