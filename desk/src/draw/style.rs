//! How the picture looks: colours and strokes, class by class.

use crate::record::KINDS;

/// Work, bar and edge of each kind: the palette of Okabe and Ito, which colour-blind readers can tell apart.
const PALETTE: [[&str; 3]; KINDS] = [
    ["#E69F00", "#FAEAC7", "#8F6300"],
    ["#56B4E9", "#DAEEFA", "#357090"],
    ["#009E73", "#C7EAE0", "#006247"],
    ["#F0E442", "#FCF9D5", "#958D29"],
    ["#0072B2", "#C7E0EE", "#00476E"],
    ["#D55E00", "#F6DCC7", "#843A00"],
    ["#CC79A7", "#F4E2EC", "#7E4B68"],
    ["#303030", "#D1D1D1", "#1E1E1E"],
];

const STYLE: &str = "\
text{font-family:sans-serif;fill:#222}
.title,.strong{font-weight:bold}
.quiet,.step{fill:#666}
.step{text-anchor:middle}
.deadline-word{text-anchor:end}
.grey{fill:#767676;font-style:italic}
.fault{fill:#B3261E}
.paper{fill:#fff}
.passes{fill:#E3F4E6}
.refused{fill:#FBE5E3}
.passes-mark{fill:#1B7F3B}
.refused-mark{fill:#B3261E}
.mark{fill:none;stroke:#fff;stroke-width:2;stroke-linecap:round;stroke-linejoin:round}
.unselected{fill:#E4E4E4}
.thin{fill:none;stroke:#D8D8D8}
.thick{fill:none;stroke:#8A8A8A}
.deadline{fill:none;stroke:#222;stroke-width:2}
.plain.work{fill:#8A8A8A}
.plain.bar{fill:#F4F4F4;stroke:#777}
.spacing{fill:url(#hatch);stroke:#555;stroke-width:.6}
.excess{fill:#D0021B}
.tag{fill:#fff;fill-opacity:.88}
.tag,.halo,.over,[class^=link],[class^=chain],[class^=broken]{pointer-events:none}
.halo{fill:none;stroke:#fff;stroke-opacity:.85;stroke-width:4.5}
.link{fill:none;stroke:#52616F;stroke-width:1.1}
.link-dot{stroke:#52616F;stroke-width:4.4;stroke-linecap:round}
.link-tip{marker-end:url(#link-head)}
.chain{fill:none;stroke:#6A1B9A;stroke-width:2.2}
.chain-dot{stroke:#6A1B9A;stroke-width:5;stroke-linecap:round}
.chain-tip{marker-end:url(#chain-head)}
.broken{fill:none;stroke:#D0021B;stroke-width:1.6;stroke-dasharray:5 3}
.broken-dot{stroke:#D0021B;stroke-width:4.4;stroke-linecap:round}
.broken-tip{marker-end:url(#broken-head)}
";

const HATCH: &str = "\
<pattern id=\"hatch\" width=\"4\" height=\"4\" patternUnits=\"userSpaceOnUse\" patternTransform=\"rotate(45)\">
<rect width=\"4\" height=\"4\" fill=\"#fff\"/><rect width=\"1.6\" height=\"4\" fill=\"#555\"/>
</pattern>
";

/// The length of an arrow's head. It stands beyond the end of its line.
pub const HEAD: f64 = 7.0;

const HEADS: [[&str; 2]; 3] = [
    ["link", "#52616F"],
    ["chain", "#6A1B9A"],
    ["broken", "#D0021B"],
];

/// The style sheet, and the shapes that it names.
pub fn style() -> String {
    let kinds: String = PALETTE.iter().enumerate().map(kind_style).collect();
    let heads = HEADS.map(arrow_head).concat();
    format!("<style>\n{STYLE}{kinds}</style>\n<defs>\n{HATCH}{heads}</defs>")
}

fn kind_style((kind, [work, bar, edge]): (usize, &[&str; 3])) -> String {
    format!(".k{kind}.work{{fill:{work}}}\n.k{kind}.bar{{fill:{bar};stroke:{edge}}}\n")
}

fn arrow_head([link, colour]: [&str; 2]) -> String {
    format!(
        r##"<marker id="{link}-head" markerUnits="userSpaceOnUse" markerWidth="9" markerHeight="9" refX="1" refY="4.5" orient="auto">
<path d="M1 .8L8 4.5L1 8.2Z" fill="{colour}" stroke="#fff" stroke-width=".6"/>
</marker>
"##
    )
}
