"""How the page looks, light and dark, and the lines of script by which it finds a net."""

STYLE = """
:root{color-scheme:light dark;--bg:#fff;--fg:#1b1f24;--dim:#5b6570;--line:#d5dae0;--repaired:#1a8f4c;--undecided:#8a4fd0;--unknown:#e08a1e}
@media(prefers-color-scheme:dark){:root{--bg:#14181d;--fg:#e4e8ec;--dim:#98a3ae;--line:#333b44;--repaired:#3dbb74;--undecided:#b48af0;--unknown:#f0a548}}
body{background:var(--bg);color:var(--fg);font:15px/1.5 system-ui,sans-serif;max-width:62rem;margin:1.5rem auto;padding:0 1rem}
h1{font-size:1.4rem;margin:0}h2{font-size:1.1rem;margin:2rem 0 .4rem}p{margin:.4rem 0}.dim,figcaption,caption{color:var(--dim)}
table{border-collapse:collapse;width:100%;font-size:.9rem}th,td{text-align:left;padding:.15rem .6rem .15rem 0;border-bottom:1px solid var(--line);vertical-align:top}
td.n,th.n{text-align:right;font-variant-numeric:tabular-nums}code,pre,td.name,summary{font-family:ui-monospace,monospace;font-size:.86rem;overflow-wrap:anywhere}
pre{background:color-mix(in srgb,var(--line) 30%,transparent);padding:.6rem;white-space:pre-wrap}
dl{display:grid;grid-template-columns:repeat(auto-fill,minmax(11rem,1fr));gap:.4rem 1rem;margin:.8rem 0}dt{color:var(--dim);font-size:.85rem}dd{margin:0;font-size:1.15rem;font-variant-numeric:tabular-nums}
figure{margin:.4rem 0}svg{display:block;width:100%;height:auto}svg.small{display:inline-block;width:9rem;height:1.1rem;vertical-align:middle;border-bottom:1px solid var(--line)}
.repaired{fill:var(--repaired)}.undecided{fill:var(--undecided)}.unknown{fill:var(--unknown)}.recorded{fill:none;stroke:var(--fg);stroke-width:1.2}
svg text{fill:var(--dim);font-size:11px}svg .grid{stroke:var(--line)}i{display:inline-block;width:.8rem;height:.8rem;border-radius:2px;margin-right:.3rem;vertical-align:-1px}figcaption span{display:inline-block;margin-right:1rem}figcaption{font-size:.9rem}
i.repaired{background:var(--repaired)}i.undecided{background:var(--undecided)}i.unknown{background:var(--unknown)}i.outline{border:1.5px solid var(--fg);height:.5rem}
details details,details>div{margin-left:1.1rem}summary{cursor:pointer;padding:.1rem 0}input{font:inherit;width:20rem;max-width:100%}
"""
SCRIPT = """
const box=document.getElementById("find"),out=document.getElementById("found");let rows;
document.getElementById("finder").hidden=false;
box.oninput=()=>{if(!rows){let name="";rows=[];for(const line of document.getElementById("nets").textContent.split("\\n").filter(Boolean)){
const part=line.split(" ");name=name.slice(0,part[0])+part[1];rows.push([decodeURIComponent(name),...part.slice(2)])}}
const found=box.value?rows.filter(row=>row[0].includes(box.value)):[],body=out.tBodies[0];body.replaceChildren();out.hidden=!found.length;
document.getElementById("count").textContent=box.value?found.length+" nets"+(found.length>100?", the first 100 of them":""):"";
for(const row of found.slice(0,100)){const line=body.insertRow();row.forEach((text,at)=>{const cell=line.insertCell();cell.textContent=text;cell.className=at?"n":"name"})}};
"""
