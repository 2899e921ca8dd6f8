//! The texts to fill in: document 01's 'The slip', which prices as it stands.

/// Threshold 50,000.00, fee and minimum 200.00, 84 months; one zone.
pub const BOOK: &str = "\
file = rate book
discount rate = 0.00
selected opex 1 = 0
distribution revenue 1 = 1
selected opex 2 = 0
distribution revenue 2 = 1
selected opex 3 = 0
distribution revenue 3 = 1
selected opex 4 = 0
distribution revenue 4 = 1
selected opex 5 = 0
distribution revenue 5 = 1
distribution revenue factor year 0 = 1.0000
transmission revenue factor year 0 = 1.0000
threshold = 50000.00
fee = 200.00
minimum = 200.00
term months = 84
capacity charged = yes
credit share = 65.00
first zone number = 1
first zone LV mains rate = 0.00
first zone distribution substation rate = 0.00
first zone HV feeder rate = 85.00
first zone zone substation rate = 380.00
first zone sub-transmission rate = 100.00
";

/// Person 4711 in April 2026 with 150 kVA.
pub const REQUEST: &str = "\
file = request
person number = 4711
class = non-residential
zone number = 1
minimum scheme extension ME = 15985.00
customer enhancement extension CE = 0.00
distributor enhancement DE = 0.00
transmission works TW = 0.00
historical cost recovery HR = 0.00
operating loading OL = 0.00
LV mains mode = posted
LV mains demand = 4.00
LV mains bespoke rate = 0.00
distribution substation mode = posted
distribution substation demand = 4.00
distribution substation bespoke rate = 0.00
HV feeder mode = posted
HV feeder demand = 2.00
HV feeder bespoke rate = 0.00
zone substation mode = posted
zone substation demand = 2.00
zone substation bespoke rate = 0.00
sub-transmission mode = posted
sub-transmission demand = 1.50
sub-transmission bespoke rate = 0.00
LV mains added demand = 0.00
distribution substation added demand = 0.00
HV feeder added demand = 0.00
zone substation added demand = 0.00
sub-transmission added demand = 0.00
year-one distribution revenue = 573.20
year-one transmission revenue = 0.00
part-year factor year 0 = 0.0000
part-year factor year 1 = 1.0000
distribution tariff factor year 0 = 1.0000
transmission tariff factor year 0 = 1.0000
month = 2026-04
capacity = 150.00
scheme joined = 0
mark = none
";
