import collections
base='flow_text origin_labels flow_lists flow_io flow_policy flow_frames js_number js_ast js_list_parser js_scan js_orders js_faults js_parse_parts js_parse_cycle js_parse_expr js_functions js_parse js_early js_unbuilt js_shell jsflow js_values es_meaning flow_meaning low_equal base_tests token_tests source_tests'.split()
P=collections.Counter();T=collections.Counter();E=collections.Counter();n=collections.Counter()
last=0
for l in open('/work/tmp/sample.tsv'):
    f=l.rstrip('\n').split('\t'); name,mode,tags,cpu,cwd,t=f[2],f[3],f[4],float(f[5]),f[7],float(f[8])
    if name=='?' or 'rt-copy' in cwd or '/final' in cwd: continue
    if mode=='build' and '--test' in tags: T[name]+=cpu
    elif mode=='build': P[name]+=cpu
    elif 'rt-edit' in cwd: E[name]+=cpu; n[name]+=1
print('all P %.0f T %.0f E %.0f'%tuple(sum(x.values())/60 for x in (P,T,E)))
print('base P %.0f T %.0f E %.0f'%tuple(sum(x[c] for c in base)/60 for x in (P,T,E)), sum(x[c] for c in base for x in (P,T,E))/60)
print(', '.join('%s %.0f'%(k,v) for k,v in E.most_common()))
allc=collections.Counter()
for x in (P,T,E): allc.update(x)
print('; '.join('%s %.0f%s%s'%(c,P[c],'+%.0f'%T[c] if T[c] else '','+%.0f'%E[c] if E[c] else '') for c,_ in allc.most_common()))
