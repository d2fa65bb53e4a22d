"""The menus as the manual has them: items, prompts and what each asks."""

# a path's items: (name, next); a next that is a key of MENUS is a path, any other is an action


def formats(prefix, reset):
    """The items of a menu of formats."""
    out = [('Fixed', prefix + 'fixed'), ('Currency', prefix + 'currency'), (',', prefix + 'comma'),
           ('General', prefix + 'general'), ('Percent', prefix + 'percent'), ('Date', prefix + 'date'),
           ('Text', prefix + 'text'), ('Hidden', prefix + 'hidden')]
    if reset:
        out.append(('Reset', prefix + 'reset'))
    return out


def dates(prefix):
    """The items of a menu of dates."""
    return [('1', prefix + 'date1'), ('2', prefix + 'date2'), ('3', prefix + 'date3')]


MENUS = {
    # Worksheet Range Copy Move File Print Data Quit
    'main': [('Worksheet', 'w'), ('Range', 'r'), ('Copy', 'copy'), ('Move', 'move'), ('File', 'f'), ('Print', 'p'),
             ('Data', 'd'), ('Quit', 'q')],
    'w': [('Global', 'wg'), ('Insert', 'wi'), ('Delete', 'wd'), ('Column', 'wc'), ('Erase', 'we')],
    'wg': [('Format', 'wgf.'), ('Label-Prefix', 'wgl'), ('Column-Width', 'wgc'), ('Recalculation', 'wgr'),
           ('Protection', 'wgp')],
    'wgf.': formats('wgf.', False), 'wgf.date': dates('wgf.'),
    'wgl': [('Left', 'wgl.left'), ('Right', 'wgl.right'), ('Center', 'wgl.center')],
    # the orders and the number of passes
    'wgr': [('Natural', 'wgr.natural'), ('Columnwise', 'wgr.columnwise'), ('Rowwise', 'wgr.rowwise'),
            ('Automatic', 'wgr.automatic'), ('Manual', 'wgr.manual'), ('Iteration', 'wgr.iteration')],
    'wgp': [('Enable', 'wgp.enable'), ('Disable', 'wgp.disable')],
    'wi': [('Column', 'wi.column'), ('Row', 'wi.row')],
    'wd': [('Column', 'wd.column'), ('Row', 'wd.row')],
    # hidden columns
    'wc': [('Set-Width', 'wc.set'), ('Reset-Width', 'wc.reset'), ('Hide', 'wc.hide'), ('Display', 'wc.display')],
    'we': [('No', 'nothing'), ('Yes', 'we.yes')],
    'r': [('Format', 'rf.'), ('Label', 'rl'), ('Erase', 'r.erase'), ('Name', 'rn'), ('Protect', 'r.protect'),
          ('Unprotect', 'r.unprotect'), ('Value', 'r.value'), ('Transpose', 'r.transpose')],
    'rf.': formats('rf.', True), 'rf.date': dates('rf.'),
    'rl': [('Left', 'rl.left'), ('Right', 'rl.right'), ('Center', 'rl.center')],
    'rn': [('Create', 'rn.create'), ('Delete', 'rn.delete'), ('Reset', 'rn.reset')],
    'f': [('Retrieve', 'f.retrieve'), ('Save', 'f.save'), ('Combine', 'fc'), ('Xtract', 'fx'), ('Erase', 'f.erase')],
    'fc': [('Copy', 'fc.copy'), ('Add', 'fc.add'), ('Subtract', 'fc.subtract')],
    'fx': [('Formulas', 'fx.formulas'), ('Values', 'fx.values')],
    'p': [('File', 'p.file')],
    'print': [('Range', 'p.range'), ('Options', 'po'), ('Go', 'p.go'), ('Quit', 'nothing')],
    'po': [('Header', 'po.header'), ('Footer', 'po.footer'), ('Margins', 'pm'), ('Pg-Length', 'po.length'),
           ('Quit', 'po.quit')],
    'pm': [('Left', 'pm.left'), ('Right', 'pm.right'), ('Top', 'pm.top'), ('Bottom', 'pm.bottom'), ('Quit', 'pm.quit')],
    'd': [('Fill', 'd.fill'), ('Table', 'dt'), ('Sort', 'ds'), ('Query', 'dq'), ('Distribution', 'd.distribution')],
    'dt': [('1', 'dt.1'), ('2', 'dt.2'), ('Reset', 'dt.reset')],
    'ds': [('Data-Range', 'ds.range'), ('Primary-Key', 'ds.primary'), ('Secondary-Key', 'ds.secondary'),
           ('Reset', 'ds.reset'), ('Quit', 'nothing'), ('Go', 'ds.go')],
    'dq': [('Input', 'dq.input'), ('Criterion', 'dq.criterion'), ('Output', 'dq.output'), ('Extract', 'dq.extract'),
           ('Unique', 'dq.unique'), ('Delete', 'dqd'), ('Reset', 'dq.reset'), ('Quit', 'nothing')],
    'dqd': [('Cancel', 'nothing'), ('Delete', 'dq.delete')],
    'q': [('No', 'nothing'), ('Yes', 'q.yes')],
}

# paths and actions that are left out of the menus: none, or those that the program has not built
NOT_BUILT = set()


def is_shown(nxt):
    """Whether a menu shows the item that leads there: a menu all of whose items are left out isn't shown either."""
    if nxt in NOT_BUILT:
        return False
    return nxt not in MENUS or any(is_shown(below) for _, below in MENUS[nxt])


def items(path):
    """The items of a path that are shown."""
    return [item for item in MENUS[path] if is_shown(item[1])]


PARENT = {nxt: path for path, items in MENUS.items() for _, nxt in items if nxt in MENUS}
PARENT['print'] = 'p'          # the menu that Print > File opens stands below Print

# asks: 'R' range, 'C' cell, ('N', low, high), 'D', 'T' (kind), ('F', ext), 'replace', 'confirm'
DECIMALS = ('N', 0, 15)
WORKSHEET, REPORT = ('F', 'WK1'), ('F', 'PRN')
WITH_DECIMALS = ('fixed', 'currency', 'comma', 'percent')

# the prompts of each action by their names: the name of table 1's second prompt, that of the bins and that of GOTO
# aren't given, and are this project's choice
PROMPTS = {
    **{act: [(name, DECIMALS)] for name, act in MENUS['wgf.'] if act[4:] in WITH_DECIMALS},
    **{act: [(name, DECIMALS), ('Range', 'R')] if act[3:] in WITH_DECIMALS else [(name, 'R')]
       for name, act in MENUS['rf.'] + MENUS['rf.date'] if act != 'rf.date'},
    'wgc': [('Column-Width', ('N', 1, 240))],
    'wgr.iteration': [('Iteration', ('N', 1, 50))],
    **{act: [(name, 'R')] for name, act in MENUS['wi'] + MENUS['wd']},
    'wc.set': [('Set-Width', ('N', 1, 240))],
    'wc.hide': [('Hide', 'R')],
    'wc.display': [('Display', 'R')],
    **{act: [(name, 'R')] for name, act in MENUS['rl']},
    'r.erase': [('Erase', 'R')],
    'rn.create': [('Create', 'T:name'), ('Range', 'R')],
    'rn.delete': [('Delete', 'T:old')],
    'r.protect': [('Protect', 'R')],
    'r.unprotect': [('Unprotect', 'R')],
    'r.value': [('Value', 'R'), ('To', 'C')],
    'r.transpose': [('Transpose', 'R'), ('To', 'C')],
    'copy': [('Copy', 'R'), ('To', 'R')],
    'move': [('Move', 'R'), ('To', 'C')],
    'f.retrieve': [('Retrieve', WORKSHEET)],
    'f.save': [('Save', WORKSHEET), ('', 'replace')],
    **{act: [(name, WORKSHEET)] for name, act in MENUS['fc']},
    **{act: [(name, WORKSHEET), ('Range', 'R'), ('', 'replace')] for name, act in MENUS['fx']},
    'f.erase': [('Erase', WORKSHEET), ('', 'confirm')],
    'p.file': [('File', REPORT), ('', 'replace')],
    'p.range': [('Range', 'R')],
    'po.header': [('Header', 'T')],
    'po.footer': [('Footer', 'T')],
    'po.length': [('Pg-Length', ('N', 10, 100))],
    'pm.left': [('Left', ('N', 0, 240))],
    'pm.right': [('Right', ('N', 0, 240))],
    'pm.top': [('Top', ('N', 0, 10))],
    'pm.bottom': [('Bottom', ('N', 0, 10))],
    'd.fill': [('Fill', 'R'), ('Start', 'D'), ('Step', 'D'), ('Stop', 'D')],
    'dt.1': [('1', 'R'), ('Down', 'C')],
    'dt.2': [('2', 'R'), ('Down', 'C'), ('Across', 'C')],
    'ds.range': [('Data-Range', 'R')],
    'ds.primary': [('Primary-Key', 'C'), ('Order', 'T:order')],
    'ds.secondary': [('Secondary-Key', 'C'), ('Order', 'T:order')],
    'dq.input': [('Input', 'R')],
    'dq.criterion': [('Criterion', 'R')],
    'dq.output': [('Output', 'R')],
    'd.distribution': [('Distribution', 'R'), ('Range', 'R')],
    'goto': [('Goto', 'C')],
}

# where a finished command leads: the menu it goes back to; absent is READY
BACK = {'ds.range': 'ds', 'ds.primary': 'ds', 'ds.secondary': 'ds',
        'dq.input': 'dq', 'dq.criterion': 'dq', 'dq.output': 'dq',
        'p.file': 'print', 'p.range': 'print', 'po.header': 'po', 'po.footer': 'po', 'po.length': 'po',
        'pm.left': 'pm', 'pm.right': 'pm', 'pm.top': 'pm', 'pm.bottom': 'pm',
        'po.quit': 'print', 'pm.quit': 'po'}

CHOICES = {'replace': ['Cancel', 'Replace'], 'confirm': ['No', 'Yes']}


def prompts(action):
    """What an action asks for."""
    return PROMPTS.get(action, [])
