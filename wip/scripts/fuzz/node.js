const vm=require('vm'),fs=require('fs');
const files=JSON.parse(fs.readFileSync(process.argv[2]));
const out=[];
for(const src of files){
  const lines=[]; const ctx=vm.createContext({print:(c,t)=>{ if(lines.length<5000) lines.push(c+' '+String(t)); }});
  let end='done';
  try{ vm.runInContext('"use strict";'+src,ctx,{timeout:2000}); }
  catch(e){ end = e&&e.code==='ERR_SCRIPT_EXECUTION_TIMEOUT' ? 'timeout' : e && typeof e==='object' && e.name==='SyntaxError' ? 'syntax '+e.message : 'threw'; }
  out.push([lines,end]);
}
fs.writeFileSync(process.argv[3],JSON.stringify(out));
