from wozgirt.ring import NoMachine, Ring

with Ring(n=3, k=3, start=[0, 0, 0], seats=1) as ring:
    for machine in range(3):
        print(ring.pass_(seat=0, machine=machine, order=5))
    try:
        ring.pass_(seat=0, machine=7, order=5)
    except NoMachine as refused:
        print(refused)
    with open("history.txt", "wb") as file:
        file.write(ring.save())
