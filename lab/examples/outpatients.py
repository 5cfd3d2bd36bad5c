"""Patients who see a nurse, one of two doctors, and the desk.  A tick is a second."""

from sigma_lab.model import Model
from sigma_lab.patterns import Flow, Resource
from sigma_lab.plan import Plan
from sigma_lab.terms import draw

m = Model("OUTPATIENTS", note=__doc__)
nurse, doctor, desk = Resource(m, "NURSE"), Resource(m, "DOCTOR", 2), Resource(m, "DESK")
patient = Flow(m, "PATIENT")
patient.arrive(gap=draw(m.stream(), m.table("GAP", "normal 600 120")))
patient.serve(nurse, draw(m.stream(), m.table("NURSE_TIME", "normal 900 60")))
patient.serve(doctor, draw(m.stream(), m.table("DOCTOR_TIME", "normal 1200 60")))
patient.serve(desk, draw(m.stream(), m.table("DESK_TIME", "normal 300 60")))
patient.leave()
patient.log()
m.watch(nurse.queue, nurse.busy, doctor.queue, doctor.busy, desk.queue, desk.busy)
m.check()

if __name__ == "__main__":
    print(patient.entities(m.run(Plan(80 * 60))).to_string(index=False))
    print(m.replicate(Plan(8 * 3600, runs=100)).summary()[["value", "low", "high"]].round(3))
