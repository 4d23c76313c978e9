"""oe-say says every form's accepted reply, every status of a case and every refusal of docs/RECORDS.md, in words that were written by hand."""
import re
import subprocess
import unittest

from office import forms, replies
from office.replies import Accepted, CaseState, Refusal
from tests import stored
from tests.trial import PROGRAM, Trial

TOWER = "70000,60000,1000,2500,antenna,0,-,-"
LOW = "250000,0,1000,1000,object,0,-,-"
HIGH = "250000,0,1000,20001,object,0,-,-"
FOUND = "17a2 AAA - 500,19a AAA - 1000,9a - - 500,9b1 AAA 09/27 1867"
SESSION = [  # each record, its reply of `oe asof`, and words of what is said of it
    (f"file,o,n1,2026-03-01,-,-,normal,-,{TOWER}", "no,29,NoDay", "REFUSED (29): the desk has no day yet"),
    ("airport,o,a1,AAA,public,0,0,1000", "ok,1,published,airport", "entry 1: airport AAA is registered"),
    ("runway,o,a2,AAA,09/27,other,hard,-50000,0,1000,P,50000,0,1000,NA", "ok,2,published,runway", "entry 2: runway AAA 09/27 is registered"),
    ("heliport,o,a3,HHH,public,600000,0,601000,0,1000,500", "ok,3,published,heliport", "entry 3: heliport HHH is registered"),
    ("runway,o,x,AAA,18/36,utility,hard,0,-20000,1000,P,0,20000,1000,V", "no,2,PrecisionOnUtility", "REFUSED (2): a utility runway cannot have a precision approach"),
    ("runway,o,x,ZZZ,18/36,other,hard,0,-20000,1000,V,0,20000,1000,V", "no,3,UnknownAirfield", "REFUSED (3): no airfield of this ID"),
    ("droprunway,o,x,AAA,18/36", "no,4,UnknownRunway", "REFUSED (4): the airport has no runway of this name"),
    ("runway,o,x,AAA,18/36,other,hard,0,0,1000,V,0,999,1000,V", "no,5,RunwayLength", "REFUSED (5): a runway is 100 to 20,000 ft long"),
    ("runway,o,x,AAA,18/36,other,hard,0,400001,1000,V,0,402001,1000,V", "no,6,RunwayFar", "REFUSED (6): an end of a runway is more than 40,000 ft"),
    ("airport,o,x,BBB,public,0,0,200001", "no,9,ElevationRange", "REFUSED (9): an elevation is below -2,000 ft or above 20,000 ft"),
    ("heliport,o,x,PAD,public,600000,0,600099,0,1000,500", "no,10,HeliportShape", "REFUSED (10): the area of a heliport is 10 to 1,000 ft long"),
    ("airport,o,x,HHH,public,0,0,1000", "no,11,WrongKind", "REFUSED (11): this ID is an airfield of the other sort"),
    ("runway,o,a4,AAA,18/36,other,hard,0,-20000,1000,V,0,20000,1000,V", "ok,4,published,runway", "entry 4: runway AAA 18/36 is registered"),
    ("droprunway,o,a5,AAA,18/36", "ok,5,published,droprunway", "entry 5: runway AAA 18/36 is taken out"),
    ("airport,o,a6,OLD,private,900000,0,1000", "ok,6,published,airport", "entry 6: airport OLD is registered"),
    ("drop,o,a7,OLD", "ok,7,published,drop", "entry 7: airfield OLD is taken out"),
    ("airfield,AAA", "airfield,airport,public,0,0,1000", "airport, public, reference point 0.0 ft east 0.0 ft north, 100.0 ft above mean sea level"),
    ("airfield,HHH", "airfield,heliport,public,600000,0,601000,0,1000,500",
     "heliport, public, axis from 60,000.0 ft east 0.0 ft north to 60,100.0 ft east 0.0 ft north, 100.0 ft wide, 50.0 ft above mean sea level"),
    ("closed,o,c1,2026-02-16", "ok,8,published,closed", "entry 8: 2026-02-16 is a closed day"),
    ("day,o,d1,2026-01-15", "ok,9,published,day", "entry 9: the desk's day is 2026-01-15"),
    (f"screen,{TOWER}", f"found,9,4,{FOUND}", "screen: 250.0 ft on ground of 100.0 ft, top 350.0 ft", "OBSTRUCTION, it exceeds:", "NOTICE to the FAA is required"),
    (f"verdict,{TOWER}", "verdict,9,yes,yes,4", "notice required: yes; obstruction: yes; findings: 4"),
    (f"asof,2,{TOWER}", f"asof,2,4,{FOUND}", "asof 2: 250.0 ft on ground of 100.0 ft", "over the airfields after entry 2:", "horizontal surface of AAA"),
    (f"asof,99,{TOWER}", "no,39,NotKept,0,9", "REFUSED (39): this run can tell lists as of entries 0 to 9 alone"),
    ("screen,0,0,1000,200.1,object,0,-,-", "no,13,Malformed,5", 'REFUSED (13) at field 5, HEIGHT: "200.1" (a point'),
    (f"file,o,n1,2026-03-01,-,-,normal,-,{TOWER}", "ok,10,published,case,1,timely,-,-", "entry 10: filed as case 1; the notice is in time"),
    (f"file,o,n1,2026-03-02,-,-,normal,-,{TOWER}", "no,28,KeyReused,10", "REFUSED (28): this CALLER and KEY stand for another request, entry 10"),
    (f"file,o,n2,2026-03-01,2026-02-01,2026-01-05,normal,-,{HIGH}", "ok,11,published,case,2,late 28,late 10,unexplained",
     "filed as case 2; the notice is late by 28 days", "counted from the FCC application the notice is late by 10 days", "more than 2,000 ft, unexplained: presumed a hazard (77.7(d))"),
    (f"file,o,n3,2026-01-15,-,-,emergency,yes,{HIGH}", "ok,12,published,case,3,emergency 2026-01-20,-,explained",
     "filed as case 3; an emergency, its form is due by 2026-01-20", "more than 2,000 ft, explained"),
    (f"file,o,n4,2026-12-01,-,-,normal,-,{TOWER}", "ok,13,published,case,4,timely,-,-", "filed as case 4"),
    (f"file,o,n5,2026-12-01,-,-,normal,-,{LOW}", "ok,14,published,case,5,timely,-,-", "filed as case 5"),
    (f"file,o,n6,2026-12-01,-,2026-01-15,normal,-,{LOW}", "ok,15,published,case,6,timely,timely,-", "counted from the FCC application the notice is in time"),
    ("case,1", "case,1,awaiting,-,-,-,-,-,-,-", "case 1 is awaiting its determination\n"),
    ("case,9", "no,14,UnknownCase", "REFUSED (14): there is no case of this number"),
    ("determine,o,n1.det,1,-", "no,18,FindingWanted", "REFUSED (18): a standard is exceeded"),
    ("determine,o,n1.det,1,none", f"ok,16,published,determine,1,nohazard,15,2026-01-15,2026-02-17,2026-02-24,2027-08-24,4,{FOUND}",
     "case 1: NO HAZARD, issued 2026-01-15; petitions until 2026-02-17; effective 2026-02-24; expires 2027-08-24\n", "horizontal surface of AAA             by 100.0 ft"),
    ("case,1", "case,1,pending,nohazard,2026-01-15,2026-02-17,2026-02-24,2027-08-24,2027-08-09,-",
     "case 1 is pending: NO HAZARD, issued 2026-01-15; petitions until 2026-02-17; effective 2026-02-24; expires 2027-08-24; the last day to ask for an extension is 2027-08-09\n"),
    ("determine,o,n2.det,2,substantial", "ok,17,published,determine,2,hazard,16,2026-01-15,2026-02-17,2026-02-24,-,4,17a1 - - 15011,17a2 AAA - 16886,9a - - 18001,9b1 AAA 09/27 18001",
     "case 2: HAZARD, issued 2026-01-15; petitions until 2026-02-17; effective 2026-02-24; no expiry\n", "499 ft above the ground"),
    ("determine,o,n4.det,4,substantial", f"ok,18,published,determine,4,hazard,17,2026-01-15,2026-02-17,2026-02-24,-,4,{FOUND}", "case 4: HAZARD"),
    ("determine,o,n5.det,5,none", "no,19,FindingUnwanted", "REFUSED (19): no standard is exceeded: say -"),
    ("determine,o,n5.det,5,-", "ok,19,published,determine,5,nohazard,18,2026-01-15,-,2026-01-15,2027-07-15,0",
     "case 5: NO HAZARD, issued 2026-01-15; no petition may come; effective 2026-01-15; expires 2027-07-15\n", "no rule that the desk knows is met"),
    ("determine,o,n6.det,6,-", "ok,20,published,determine,6,nohazard,19,2026-01-15,-,2026-01-15,2027-07-15,0", "case 6: NO HAZARD"),
    ("petition,o,n5.pet,5,sponsor", "no,20,NotReviewable", "REFUSED (20): this determination has no deadline"),
    ("dispose,o,n1.dis,1,affirm", "no,23,NothingPending", "REFUSED (23): no petition is pending"),
    ("petition,o,n1.pet,1,commenter", "ok,21,published,petition,1", "case 1: a petition is pending"),
    ("petition,o,n1.pet2,1,commenter", "no,22,PetitionPending", "REFUSED (22): a petition is pending already"),
    ("case,1", "case,1,pending,nohazard,2026-01-15,2026-02-17,-,-,-,-", "case 1 is pending: NO HAZARD, issued 2026-01-15; petitions until 2026-02-17; no effective day; no expiry\n"),
    ("petition,o,n4.pet,4,latecomment", "ok,22,published,petition,4", "case 4: a petition is pending"),
    ("dispose,o,n4.dis,4,reverse", "ok,23,published,dispose,4,reverse,-,-", "case 4: reversed\n"),
    ("case,4", "case,4,reversed,hazard,2026-01-15,2026-02-17,-,-,-,-", "case 4 is reversed: HAZARD, issued 2026-01-15; petitions until 2026-02-17; no effective day; no expiry\n"),
    ("form,o,n1.form,1", "no,32,NoFormDue", "REFUSED (32): no form is due on this case"),
    ("revise,o,n5.rev,5,unstarted,1000,1000,-", "no,33,SameFacts", "revise,o,n5.rev,5,unstarted,1000,1000,-\n", "REFUSED (33): the case has this ground and this height already"),
    ("revise,o,n5.rev,5,started,1000,1010,-", "no,25,WorkStarted", "REFUSED (25): structural work has started"),
    ("revise,o,n5.rev,5,unstarted,1000,1010,-", "ok,24,published,revise,5,nohazard,23,2026-01-15,-,2026-01-15,2027-07-15,0",
     "revise case 5: 101.0 ft on ground of 100.0 ft, top 201.0 ft\n", "entry 24: case 5: NO HAZARD, issued 2026-01-15; no petition may come"),
    ("extend,o,n1.ext,1,6,unstarted,-,no", "no,17,NotStanding,pending", "REFUSED (17): the case is pending, and this act does not come then"),
    ("fcc,o,n6.fcc,6,granted,2027-01-01", "ok,25,published,fcc,6,2027-01-01", "case 6: expires 2027-01-01 now"),
    ("extend,o,n6.ext,6,6,unstarted,-,yes", "no,27,FccEvidence", "REFUSED (27): the evidence of the FCC application is wanting"),
    ("day,o,d2,2026-02-10", "ok,26,published,day", "entry 26: the desk's day is 2026-02-10"),
    ("day,o,x,2026-02-09", "no,16,DayBack,2026-02-10,2026-02-09", "REFUSED (16): the desk's day is 2026-02-10 and does not go back to 2026-02-09"),
    ("form,o,n3.form,3", "ok,27,published,form,3,late 21", "case 3: the form came, late by 21 days"),
    ("dispose,o,n1.dis,1,affirm", "ok,28,published,dispose,1,affirm,2026-02-24,2027-08-24", "case 1: affirmed; effective 2026-02-24; expires 2027-08-24\n"),
    ("day,o,d3,2026-02-24", "ok,29,published,day", "entry 29"),
    ("petition,o,n2.pet,2,sponsor", "no,21,PetitionLate,2026-02-17,2026-02-24", "REFUSED (21): petitions were due by 2026-02-17, and it is 2026-02-24"),
    ("case,1", "case,1,inforce,nohazard,2026-01-15,2026-02-17,2026-02-24,2027-08-24,2027-08-09,-", "case 1 is in force: NO HAZARD, issued 2026-01-15; "),
    ("case,2", "case,2,hazard,hazard,2026-01-15,2026-02-17,2026-02-24,-,-,-",
     "case 2 is a HAZARD in effect, issued 2026-01-15; petitions until 2026-02-17; effective 2026-02-24; no expiry\n"),
    ("abandon,o,n2.aba,2", "no,17,NotStanding,hazard", "REFUSED (17): the case is a HAZARD in effect, and this act does not come then"),
    ("extend,o,n1.ext,1,18,unstarted,-,no", "ok,30,published,extend,1,2029-02-24,2029-02-09", "case 1: expires 2029-02-24 now; the last day to ask for another extension is 2029-02-09"),
    ("extend,o,n1.ext2,1,18,unstarted,-,no", "no,26,AlreadyExtended", "REFUSED (26): it was extended before"),
    ("runway,o,a8,AAA,09/27,other,hard,-50000,0,1000,P,60000,0,1000,NA", "ok,31,published,runway", "entry 31"),
    ("case,1", "case,1,inforce,nohazard,2026-01-15,2026-02-17,2026-02-24,2029-02-24,2029-02-09,marked", "MARKED FOR REVIEW"),
    ("review", "review,2,1,2", "cases marked for review: 1, 2\n"),
    ("report,review", "report,review,2\n     1  nohazard  2026-01-15\n     2  hazard    2026-01-15", "report review, lines: 2", "     2  hazard    2026-01-15"),
    ("report,expiry", "report,expiry,3\n2027-01-01       6\n2027-07-15       5\n2029-02-24       1", "report expiry, lines: 3", "2027-07-15       5"),
    ("report,airfields", "report,airfields,2\nAAA       airport      1000   1\nHHH       heliport      500   0", "report airfields, lines: 2"),
    ("abandon,o,n6.aba,6", "ok,32,published,abandon,6", "case 6: given up"),
    ("case,6", "case,6,abandoned,nohazard,2026-01-15,-,2026-01-15,2027-01-01,2026-12-17,-", "case 6 is abandoned: NO HAZARD"),
    ("day,o,d4,2029-02-25", "ok,33,published,day", "entry 33", "CAUTION: this day is 1,097 days after 2026-02-24, the day before it here"),
    ("case,1", "case,1,expired,nohazard,2026-01-15,2026-02-17,2026-02-24,2029-02-24,2029-02-09,-", "case 1 is expired: NO HAZARD"),
    (f"file,o,n7,2029-12-01,-,-,normal,-,{LOW}", "ok,34,published,case,7,timely,-,-", "filed as case 7"),
    ("determine,o,n7.det,7,-", "ok,35,published,determine,7,nohazard,34,2029-02-25,-,2029-02-25,2030-08-25,0", "case 7: NO HAZARD"),
    ("day,o,d5,2030-08-20", "ok,36,published,day", "entry 36"),
    ("extend,o,n7.ext,7,18,unstarted,-,no", "no,24,ExtensionLate,2030-08-10,2030-08-20", "REFUSED (24): an extension or a revision was to be asked for by 2030-08-10, and it is 2030-08-20"),
    ("sync", "sync,36", "the last accepted change is entry 36"),
    ("day,o,d6,2999-12-01", "ok,37,published,day", "entry 37"),
    (f"file,o,n8,2999-12-31,-,-,normal,-,{TOWER}", "ok,38,published,case,8,late 15,-,-", "the notice is late by 15 days"),
    ("determine,o,n8.det,8,none", "no,12,DateRange", "REFUSED (12): a date that follows from it would be before 1900 or after 2999"),
]
STATUSES = {"awaiting", "pending", "inforce", "hazard", "expired", "abandoned", "reversed"}
ALONE = {7: "the airport has 16 runways", 8: "16,384 airfields are registered", 15: "the desk has 300,000 cases", 30: "it could not be stored in the file",
         31: "memory was wanting", 34: "it was revised 255 times", 35: "a way has at most 64 stations", 36: "are those of the way's first station",
         37: "the way that ends here has no station", 38: "a station is a point of a road"}  # refusals of a full desk, of a file, of memory and of ways


def refusals() -> dict[int, str]:
    """The refusals of the document: number and name, with a number for each value."""
    text = (stored.TOP / "docs" / "RECORDS.md").read_text()
    rows = re.findall(r"^\| ([0-9]+) \| `(\w+)((?:,[A-Z]+)*)`", text, re.M)
    return {int(number): f"no,{number},{name}" + "".join(f",{place}" for place in range(values.count(","))) for number, name, values in rows}


class EveryReply(Trial):
    def said(self, records: list[str], told: list[str]) -> list[str]:
        """What is said of each record, its title first."""
        out = self.good("oe-say", self.write("in", "".join(one + "\n" for one in records)), self.write("out", "".join(one + "\n" for one in told))).out
        parts = re.split(r"^line [0-9]+: ", out[:out.index("\n\n") + 1], flags=re.M)[1:]
        self.assertEqual(len(parts), len(records))
        return parts

    def test_the_session(self) -> None:
        parts = self.said([record for record, *_ in SESSION], [reply for _, reply, *_ in SESSION])
        for (record, _, *words), part in zip(SESSION, parts):
            for text in words:
                self.assertIn(text, part, record)

    def test_nothing_is_missing(self) -> None:
        accepted, statuses, refused = set(), set(), set(ALONE)
        for record, reply, *_ in SESSION:
            read = replies.read(iter(reply.split("\n")))
            accepted |= set() if isinstance(read, Refusal) else {record.partition(",")[0]}
            statuses |= {read.status} if isinstance(read, CaseState) else set()
            refused |= {read.number} if isinstance(read, Refusal) else set()
            self.assertTrue(not isinstance(read, Accepted) or read.form == forms.cut(record)[0] or read.form == "case", record)
        self.assertEqual((accepted, statuses, refused), (set(forms.FORMS), STATUSES, set(refusals())))

    def test_refusals_that_take_much(self) -> None:
        """Each number of the document, with as many values as it has, and behind it another record."""
        numbers = refusals()
        parts = self.said(["screen,0,0,0,0,road,0,-,-"] * len(ALONE) + ["review"], [numbers[number] for number in ALONE] + ["review,0"])
        for (number, words), part in zip(ALONE.items(), parts):
            self.assertIn(f"REFUSED ({number}): {words}" if number < 35 else words, part)

    def test_ways(self) -> None:
        """The replies of `oe stations` in docs/RECORDS.md: a way is said at the line that ends it, and a station only if it is refused."""
        site = "-151000,0,1000,850,interstate,0,-,-"
        records = f"screen,-152000,0,1000,851,interstate,0,-,-\nscreen,{site}\n\nscreen,{site}\nscreen,-150000,0,1000,850,road,0,-,-\n-\nscreen,0,0,0,1,object,0,-,-\n-\n"
        told = "no,36,WayMixed\nstations,2,3,1,9c-b1 AAA 09/27 10 2\nno,38,NotAWay\nno,37,WayEmpty\n"
        out = self.good("oe-say", self.write("in", records), self.write("out", told)).out
        self.assertEqual(re.findall(r"^line ([0-9]+)", out, re.M), ["5", "6", "7", "8"])
        self.assertIn("line 6: a way ends, interstate, stations: 3; its traffic is added\n    NOTICE to the FAA is required (Form 7460-1), it meets:\n"
                      "      77.9(c), (b)(1) 100 to 1 slope from AAA runway 09/27, raised by its traffic  by 1.0 ft at station 2\n", out)
        self.assertIn("screened: obstructions 0, notice only 1, without a finding 0; records refused 3", out)
        last = "screen,0,0,0,1,road,0,-,-\n"
        out = self.good("oe-say", self.write("in", last * 66), self.write("out", "no,35,WayFull\nno,35,WayFull\nstations,0,64,0\n")).out
        self.assertIn("line 64: a way ends, road, stations: 64", out)
        self.assertIn("no airfield is registered", out)
        self.fault("a way of `oe stations` is not drawn", "oe-draw", self.write("in", last), self.write("out", "stations,0,1,0\n"))
        self.fault("more replies than records", "oe-say", self.write("in", last), self.write("out", "stations,0,1,0\nstations,0,1,0\n"))

    def test_stored_sessions(self) -> None:
        """Each is said to its end, with as many records as there are replies."""
        for session in stored.known():
            out = self.good("oe-say", self.write("in", session.content), self.write("out", "".join(reply + "\n" for reply in session.replies))).out
            self.assertEqual(len(re.findall(r"^line [0-9]+: ", out, re.M)), len(session.pairs()), session.title)

    @unittest.skipUnless(PROGRAM, "no program is named")
    def test_the_program_replies_so(self) -> None:
        done = subprocess.run([str(PROGRAM), "asof"], input="".join(record + "\n" for record, *_ in SESSION).encode(), capture_output=True, check=True)
        self.assertEqual(done.stdout.decode().splitlines(), [line for _, reply, *_ in SESSION for line in reply.split("\n")])
