"""A night of bands: hundreds of bands worked through side by side, and one that is refused does not stop the others.

Dask's `distributed` hands the bands to worker processes on this machine. The same script runs on a real cluster: start `dask-scheduler` on one machine and
`dask-worker tcp://SCHEDULER:8786` on the others, the package installed on each, and give the scheduler's address. Usage: night.py [tcp://SCHEDULER:8786]"""
import sys

import pampilussa as pa

BANDS = ["2 %d %s %d O" % (around, glue, across) for around in range(1, 34) for across in range(1, 6) for glue in ("P", "T1", "O")]


def work(line):
    """One band: its cells, its refined cells, and whether directions fit; or the refusal's number and sentence."""
    try:
        band = pa.Grid.parse(line).complex()
        fine = band.refine(2)
        try:
            fine.complex.orientation()
            sides = 2
        except pa.Refused as refused:
            if refused.number != 13:
                raise
            sides = 1
        return line, band.ncells, len(fine), sides
    except pa.Refused as refused:
        return line, refused.number, refused.sentence


def main(scheduler=None):
    from distributed import Client, LocalCluster, progress
    cluster = None if scheduler else LocalCluster(n_workers=2, threads_per_worker=2, dashboard_address=None)
    with Client(scheduler or cluster) as client:
        bands = client.map(work, BANDS)
        progress(bands)                                   # a bar on the terminal
        done = client.gather(bands)
    if cluster:
        cluster.close()
    assert done == [work(line) for line in BANDS]         # as a plain loop gives them
    fine = [answer for answer in done if len(answer) == 4]
    refused = [answer for answer in done if len(answer) == 3]
    print("\nbands:", len(done), "worked through:", len(fine), "refused:", len(refused))
    print("refined cells in all:", sum(answer[2] for answer in fine))
    print("with one side:", sum(answer[3] == 1 for answer in fine))
    print("the first refused: %s, %d: %s" % refused[0])


if __name__ == "__main__":
    main(*sys.argv[1:])
