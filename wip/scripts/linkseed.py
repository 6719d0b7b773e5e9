import os,shutil,sys
def linked(folder,to):
    def copy(one,other):
        try:
            if one.endswith('.oantt'): return os.link(one,other)
        except OSError: pass
        return shutil.copy2(one,other)
    shutil.copytree(folder,to,symlinks=True,copy_function=copy)
os.makedirs(os.path.dirname(sys.argv[2]),exist_ok=True)
linked(sys.argv[1],sys.argv[2])
